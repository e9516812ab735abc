//! Stub: no alias is ever set.

use crate::{Alias, CachedPath, Ctx, ResolveResult, ResolverImpl, TsConfig};

#[derive(Default)]
pub struct CompiledAlias;

impl CompiledAlias {
    pub fn any_key_matches(&self, _path: &[u8]) -> bool {
        false
    }
}

pub fn compile_alias(alias: &Alias) -> CompiledAlias {
    assert!(alias.is_empty(), "no alias is ever set");
    CompiledAlias
}

impl ResolverImpl {
    pub(crate) fn load_alias(
        &self,
        _cached_path: &CachedPath,
        _specifier: &str,
        _alias: &CompiledAlias,
        _tsconfig: Option<&TsConfig>,
        _ctx: &mut Ctx,
    ) -> ResolveResult {
        Ok(None)
    }
}
