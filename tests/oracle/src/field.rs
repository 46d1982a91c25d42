//! A call as a list of named fields: what a record, a comparison and a report are made of.

use crate::element::Element;
use crate::lent::{Lent, Slice};
use crate::places::{Places, Values};
use std::rc::Rc;

/// What a call does with a field.
#[derive(Clone, Copy, PartialEq)]
pub enum Role {
    /// Is lent it, and leaves it alone.
    Lent,
    /// Writes some of its places.
    Span,
    /// Is lent it, and leaves it changed.
    State,
    /// Answers in it.
    Answer,
    /// Answers in it, and no record has it.
    Unlisted,
}

/// How a record has a field.
pub enum Shape {
    /// Every element.
    Plain,
    /// An array of a state: the end of it that follows a pattern, or did not change, is left out.
    Array,
    /// A slice as it was drawn.
    Slice(Rc<Lent>),
}

pub struct Field<'a> {
    /// The part of a line that has the field, or nothing.
    pub part: &'static str,
    pub name: &'static str,
    pub role: Role,
    pub shape: Shape,
    pub values: Box<dyn Values + 'a>,
}

impl<'a> Field<'a> {
    fn of<T: Element>(shape: Shape, places: Places<'a, T>) -> Self {
        Field {
            part: "",
            name: "",
            role: Role::Lent,
            shape,
            values: Box::new(places),
        }
    }

    pub fn named(mut self, name: &'static str) -> Self {
        self.name = name;
        self
    }

    pub fn role(mut self, role: Role) -> Self {
        self.role = role;
        self
    }

    /// Whether it is lent, and not only answered.
    pub fn is_lent(&self) -> bool {
        [Role::Lent, Role::Span, Role::State].contains(&self.role)
    }
}

/// The type of a field.
pub trait Member {
    fn field(&mut self) -> Field<'_>;
    fn zeros() -> Self;
}

impl<T: Element> Member for T {
    fn field(&mut self) -> Field<'_> {
        let places = Places::Fixed(std::slice::from_mut(self));
        Field::of(Shape::Plain, places)
    }

    fn zeros() -> Self {
        T::default()
    }
}

impl<T: Element, const N: usize> Member for [T; N] {
    fn field(&mut self) -> Field<'_> {
        Field::of(T::ARRAY, Places::Fixed(self))
    }

    fn zeros() -> Self {
        [T::default(); N]
    }
}

impl<T: Element> Member for Vec<T> {
    fn field(&mut self) -> Field<'_> {
        Field::of(T::ARRAY, Places::Slice(self))
    }

    fn zeros() -> Self {
        Vec::new()
    }
}

impl<T: Element> Member for Slice<T> {
    fn field(&mut self) -> Field<'_> {
        let shape = Shape::Slice(self.drawn.clone());
        Field::of(shape, Places::Slice(&mut self.elements)).role(self.role)
    }

    fn zeros() -> Self {
        Vec::new().into()
    }
}

/// What has fields: a state, what a call is lent, what it answers.
pub trait Fields: Clone + 'static {
    /// In the order of a record.
    fn fields(&mut self) -> Vec<Field<'_>>;

    /// What is answered before the call, and by a refused opening.
    fn zeros() -> Self;

    fn fields_as(&mut self, role: Role) -> Vec<Field<'_>> {
        self.fields().into_iter().map(|f| f.role(role)).collect()
    }
}

impl Fields for () {
    fn fields(&mut self) -> Vec<Field<'_>> {
        Vec::new()
    }

    fn zeros() {}
}

/// A struct whose members are its fields.
macro_rules! fields {
    ($(#[$doc:meta])* pub struct $name:ident { $($members:tt)* }) => {
        crate::field::fields!(@ [$(#[$doc])*] $name [] [] { $($members)* });
    };
    ($(#[$doc:meta])* pub struct $name:ident<$($type:ident: Element),*> { $($members:tt)* }) => {
        crate::field::fields!(
            @ [$(#[$doc])*] $name [$($type: crate::element::Element),*] [$($type),*] { $($members)* }
        );
    };
    ($(#[$doc:meta])* pub struct $name:ident<const $size:ident: usize> { $($members:tt)* }) => {
        crate::field::fields!(
            @ [$(#[$doc])*] $name [const $size: usize] [$size] { $($members)* }
        );
    };
    (
        @ [$($doc:tt)*] $name:ident [$($declared:tt)*] [$($used:tt)*]
        { $($member:ident: $type:ty),* $(,)? }
    ) => {
        $($doc)*
        #[derive(Clone)]
        pub struct $name<$($declared)*> {
            $(pub $member: $type,)*
        }

        impl<$($declared)*> crate::field::Fields for $name<$($used)*> {
            fn fields(&mut self) -> Vec<crate::field::Field<'_>> {
                use crate::field::Member;
                vec![$(self.$member.field().named(stringify!($member))),*]
            }

            fn zeros() -> Self {
                $name {
                    $($member: crate::field::Member::zeros(),)*
                }
            }
        }
    };
}
pub(crate) use fields;
