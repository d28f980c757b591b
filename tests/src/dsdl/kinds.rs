//! Why definitions are refused (RULES 17.2 to 17.12), finer than the numbers answered, so that a
//! comparison can count what it tried.

pub type Kind = &'static str;

pub const LINE: Kind = "40: a line of one word that is none of those allowed";
pub const DIRECTIVE: Kind = "40: a directive that is none, or has arguments";
pub const MARKER: Kind = "40: a marker with more words";
pub const NO_NAME: Kind = "40: a type or cast mode with nothing behind it";
pub const MORE_WORDS: Kind = "40: words behind a field";
pub const NAME: Kind = "40: a field or constant whose name is none";
pub const BASE: Kind = "40: a type that is no name";
pub const LONG_NESTED: Kind = "40: a nested full name over 80 characters";
pub const SIZE: Kind = "40: a size that is none";
pub const NO_ITEM: Kind = "40: an array for no item";
pub const VOID_NAMED: Kind = "40: padding with a name, a cast mode or a size";
pub const CAST_NESTED: Kind = "40: a cast mode before a nested type";
pub const CONSTANT_TYPE: Kind = "40: a constant of a nested type or an array";
pub const NO_INITIALIZER: Kind = "40: a constant without an initializer";
pub const NUMBER: Kind = "40: an initializer that is no number";
pub const SIGNED_ZERO: Kind = "40: the integer literal 0 with a sign";
pub const CHARACTER: Kind = "40: quotes that are no character";
pub const ABOVE_ASCII: Kind = "40: a character above 127";
pub const INTEGER_RANGE: Kind = "40: a value beyond an integer type or bool";
pub const NOT_WHOLE: Kind = "40: a value with a fraction for an integer type or bool";
pub const INFINITE: Kind = "40: a value that rounds to infinity";
pub const SECOND_MARKER: Kind = "40: a second marker";
pub const UNION_LATE: Kind = "40: a union directive after an attribute";
pub const SECOND_UNION: Kind = "40: a second union directive in a part";
pub const NAME_TWICE: Kind = "40: a name twice in a part";
pub const FEW_AT_MARKER: Kind = "40: a union with under two fields before the marker";
pub const FEW_AT_END: Kind = "40: a union with under two fields at the end";
pub const DEFINITION_NAME: Kind = "40: a definition's name that is no dotted name";
pub const NO_NAMESPACE: Kind = "40: a definition's name without a dot";
pub const LONG_NAME: Kind = "40: a definition's name over 80 characters";
pub const NOT_GIVEN: Kind = "41: a nested type that is not given";
pub const NESTED_SERVICE: Kind = "41: a nested type that is a service";
pub const IN_ITSELF: Kind = "42: a definition in itself";
pub const CIRCLE: Kind = "42: a circle of several definitions";
pub const CHAIN: Kind = "42: a chain of five or more, no circle";
pub const TOO_MANY: Kind = "43: more than 8 definitions";
pub const TOO_LONG: Kind = "43: a text over 4,096 bytes";
pub const EQUAL_NAMES: Kind = "43: two equal names";
pub const PAST_THE_SOURCE: Kind = "43: lengths past the source";
pub const SHORT_OUTPUT: Kind = "8: the output is too short";
pub const FEW_RECORDS: Kind = "8: too few records";

pub const ALL: [Kind; 41] = [
    LINE,
    DIRECTIVE,
    MARKER,
    NO_NAME,
    MORE_WORDS,
    NAME,
    BASE,
    LONG_NESTED,
    SIZE,
    NO_ITEM,
    VOID_NAMED,
    CAST_NESTED,
    CONSTANT_TYPE,
    NO_INITIALIZER,
    NUMBER,
    SIGNED_ZERO,
    CHARACTER,
    ABOVE_ASCII,
    INTEGER_RANGE,
    NOT_WHOLE,
    INFINITE,
    SECOND_MARKER,
    UNION_LATE,
    SECOND_UNION,
    NAME_TWICE,
    FEW_AT_MARKER,
    FEW_AT_END,
    DEFINITION_NAME,
    NO_NAMESPACE,
    LONG_NAME,
    NOT_GIVEN,
    NESTED_SERVICE,
    IN_ITSELF,
    CIRCLE,
    CHAIN,
    TOO_MANY,
    TOO_LONG,
    EQUAL_NAMES,
    PAST_THE_SOURCE,
    SHORT_OUTPUT,
    FEW_RECORDS,
];
