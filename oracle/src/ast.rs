//! Stand-ins for what syntax_editor.rs names of the typed AST. Only its whitespace helpers use them, and no batch calls these.

use crate::{SyntaxKind, SyntaxNode};

pub mod syntax_factory;

pub trait AstNode {
    fn can_cast(kind: SyntaxKind) -> bool
    where
        Self: Sized;

    fn cast(syntax: SyntaxNode) -> Option<Self>
    where
        Self: Sized;

    fn syntax(&self) -> &SyntaxNode;
}

macro_rules! untyped {
    ($($name:ident)*) => {$(
        pub struct $name(SyntaxNode);

        impl AstNode for $name {
            fn can_cast(_: SyntaxKind) -> bool {
                unreachable!("no batch asks for typed nodes")
            }

            fn cast(_: SyntaxNode) -> Option<Self> {
                unreachable!("no batch asks for typed nodes")
            }

            fn syntax(&self) -> &SyntaxNode {
                &self.0
            }
        }
    )*};
}

untyped!(ItemList StmtList Stmt);

pub mod edit {
    use std::fmt;

    use crate::SyntaxElement;

    pub struct IndentLevel(pub u8);

    impl IndentLevel {
        pub fn from_element(_: &SyntaxElement) -> IndentLevel {
            unreachable!("no batch asks for whitespace")
        }
    }

    impl fmt::Display for IndentLevel {
        fn fmt(&self, _: &mut fmt::Formatter<'_>) -> fmt::Result {
            unreachable!("no batch asks for whitespace")
        }
    }
}
