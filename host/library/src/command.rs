//! The commands of a book: their bytes, operands and places in a record.

use crate::questions::Book;

/// The flags by their ids: the `bool` fields of the crate's `CompilerOptions`, in their order, as tsconfig.json names them.
///
/// ```
/// assert_eq!(tsconfig_questions::FLAGS[2], "strict");
/// ```
pub const FLAGS: [&str; 11] = [
    "experimentalDecorators",
    "emitDecoratorMetadata",
    "strict",
    "strictNullChecks",
    "useDefineForClassFields",
    "rewriteRelativeImportExtensions",
    "verbatimModuleSyntax",
    "preserveValueImports",
    "allowJs",
    "resolveJsonModule",
    "checkJs",
];

/// The text options by their ids: the `String` fields of the crate's `CompilerOptions`, in their order, as tsconfig.json names them.
///
/// ```
/// assert_eq!(tsconfig_questions::TEXT_OPTIONS[0], "jsx");
/// ```
pub const TEXT_OPTIONS: [&str; 7] =
    ["jsx", "jsxFactory", "jsxFragmentFactory", "jsxImportSource", "importsNotUsedAsValues", "target", "module"];

/// What a command says, by its byte.
#[derive(Clone, Copy, Debug, PartialEq, Eq, Hash)]
#[repr(u8)]
pub enum Field {
    Begin = 0x01,
    Files,
    FilesItem,
    Include,
    IncludeItem,
    Exclude,
    ExcludeItem,
    Extends,
    BaseUrl,
    Paths,
    Key,
    Target,
    Reference,
    RootDirs,
    RootDirsItem,
    OutDir,
    DeclarationDir,
    Flag,
    Text,
    End,
}

/// The operands of a command.
#[derive(Clone, Copy, PartialEq, Eq)]
pub enum Operands {
    Nothing,
    String,
    IdAndValue,
    IdAndString,
}

impl Operands {
    pub fn width(self) -> usize {
        match self {
            Self::Nothing => 0,
            Self::String => 4,
            Self::IdAndValue => 2,
            Self::IdAndString => 5,
        }
    }
}

impl Field {
    pub const ALL: [Self; 20] = [
        Self::Begin,
        Self::Files,
        Self::FilesItem,
        Self::Include,
        Self::IncludeItem,
        Self::Exclude,
        Self::ExcludeItem,
        Self::Extends,
        Self::BaseUrl,
        Self::Paths,
        Self::Key,
        Self::Target,
        Self::Reference,
        Self::RootDirs,
        Self::RootDirsItem,
        Self::OutDir,
        Self::DeclarationDir,
        Self::Flag,
        Self::Text,
        Self::End,
    ];

    pub fn of_byte(byte: u8) -> Option<Self> {
        Self::ALL.into_iter().find(|field| *field as u8 == byte)
    }

    pub fn operands(self) -> Operands {
        match self {
            Self::Files | Self::Include | Self::Exclude => Operands::Nothing,
            Self::Paths | Self::RootDirs | Self::End => Operands::Nothing,
            Self::Flag => Operands::IdAndValue,
            Self::Text => Operands::IdAndString,
            _ => Operands::String,
        }
    }

    /// What makes the list present that this is an item of.
    pub fn opener(self) -> Option<Self> {
        match self {
            Self::FilesItem => Some(Self::Files),
            Self::IncludeItem => Some(Self::Include),
            Self::ExcludeItem => Some(Self::Exclude),
            Self::Key => Some(Self::Paths),
            Self::RootDirsItem => Some(Self::RootDirs),
            _ => None,
        }
    }

    /// How many there may be in a record, of targets for a key. `None` for what may not repeat.
    pub fn most(self) -> Option<usize> {
        match self {
            Self::FilesItem | Self::IncludeItem | Self::ExcludeItem => Some(64),
            Self::Key => Some(32),
            Self::Reference => Some(16),
            Self::Extends | Self::Target | Self::RootDirsItem => Some(8),
            _ => None,
        }
    }

    /// Its word in the text form of a book. A list and its items have the same.
    pub fn word(self) -> &'static str {
        match self {
            Self::Begin => "record",
            Self::Files | Self::FilesItem => "files",
            Self::Include | Self::IncludeItem => "include",
            Self::Exclude | Self::ExcludeItem => "exclude",
            Self::Extends => "extends",
            Self::BaseUrl => "baseUrl",
            Self::Paths => "paths",
            Self::Key => "key",
            Self::Target => "target",
            Self::Reference => "reference",
            Self::RootDirs | Self::RootDirsItem => "rootDirs",
            Self::OutDir => "outDir",
            Self::DeclarationDir => "declarationDir",
            Self::Flag => "flag",
            Self::Text => "text",
            Self::End => "end",
        }
    }

    /// The names of the ids that it takes.
    pub fn names(self) -> &'static [&'static str] {
        match self {
            Self::Flag => &FLAGS,
            Self::Text => &TEXT_OPTIONS,
            _ => &[],
        }
    }
}

/// A command with what its operands say. What it has not is 0 or empty.
#[derive(Clone, Copy, Debug, PartialEq, Eq)]
pub struct Command<'a> {
    pub field: Field,
    pub id: u8,
    pub value: u8,
    pub string: &'a [u8],
}

impl<'a> Command<'a> {
    pub fn plain(field: Field) -> Self {
        Self { field, id: 0, value: 0, string: b"" }
    }

    pub fn with(field: Field, string: &'a [u8]) -> Self {
        Self { field, id: 0, value: 0, string }
    }

    /// The name that its id stands for.
    pub fn name(&self) -> Option<&'static str> {
        self.field.names().get(usize::from(self.id)).copied()
    }

    /// The command at an offset, and the offset after it. `None` where it cannot be read or its string leaves the text.
    pub fn read(book: Book<'a>, at: usize) -> Option<(Self, usize)> {
        let (byte, rest) = book.commands.get(at..)?.split_first()?;
        let field = Field::of_byte(*byte)?;
        let operands = rest.get(..field.operands().width())?;
        let next = at + 1 + operands.len();
        let command = match *operands {
            [id, value] => Self { field, id, value, string: b"" },
            [a, b, c, d] => Self::with(field, string(book, [a, b], [c, d])?),
            [id, a, b, c, d] => Self { field, id, value: 0, string: string(book, [a, b], [c, d])? },
            _ => Self::plain(field),
        };
        Some((command, next))
    }
}

fn string<'a>(book: Book<'a>, start: [u8; 2], length: [u8; 2]) -> Option<&'a [u8]> {
    let start = usize::from(u16::from_le_bytes(start));
    let length = usize::from(u16::from_le_bytes(length));
    book.text.get(start..)?.get(..length)
}
