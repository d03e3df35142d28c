//! The operations and the arrangements by their numbers.
use std::fmt;

/// Declares the operations: name, number, mnemonic.
macro_rules! operations {
    ($($name:ident $number:literal $mnemonic:literal,)*) => {
        /// The 67 operations. A trailing I is the immediate form if there is also a register form; 2 takes the upper source
        /// lanes; E is by element.
        ///
        /// ```
        /// use neon_terms::Operation;
        /// assert_eq!((Operation::USHR.number(), Operation::SQSHLI.mnemonic()), (6, "sqshl"));
        /// assert_eq!(Operation::of(67), Some(Operation::RSUBHN));
        /// assert_eq!(Operation::of(68), None);
        /// ```
        #[derive(Debug, Clone, Copy, PartialEq, Eq, Hash)]
        #[repr(u64)]
        pub enum Operation {
            $($name = $number,)*
        }

        impl Operation {
            /// In the order of their numbers, from 1 on.
            pub const ALL: [Self; 67] = [$(Self::$name,)*];

            /// The assembler's name. An operation that narrows has a 2 after it at 16B, 8H and 4S.
            pub fn mnemonic(self) -> &'static str {
                match self {
                    $(Self::$name => $mnemonic,)*
                }
            }
        }
    };
}

operations! {
    SHL 1 "shl",
    SQSHLI 2 "sqshl",
    UQSHLI 3 "uqshl",
    SQSHLU 4 "sqshlu",
    SSHR 5 "sshr",
    USHR 6 "ushr",
    SRSHR 7 "srshr",
    URSHR 8 "urshr",
    SSHL 9 "sshl",
    USHL 10 "ushl",
    SRSHL 11 "srshl",
    URSHL 12 "urshl",
    SQSHL 13 "sqshl",
    UQSHL 14 "uqshl",
    SQRSHL 15 "sqrshl",
    UQRSHL 16 "uqrshl",
    SLI 17 "sli",
    SRI 18 "sri",
    SQADD 19 "sqadd",
    UQADD 20 "uqadd",
    SQSUB 21 "sqsub",
    UQSUB 22 "uqsub",
    SHADD 23 "shadd",
    UHADD 24 "uhadd",
    SRHADD 25 "srhadd",
    URHADD 26 "urhadd",
    SQXTN 27 "sqxtn",
    UQXTN 28 "uqxtn",
    SQXTUN 29 "sqxtun",
    SHRN 30 "shrn",
    RSHRN 31 "rshrn",
    SQSHRN 32 "sqshrn",
    SQRSHRN 33 "sqrshrn",
    UQSHRN 34 "uqshrn",
    UQRSHRN 35 "uqrshrn",
    SQSHRUN 36 "sqshrun",
    SQRSHRUN 37 "sqrshrun",
    SQABS 38 "sqabs",
    SQNEG 39 "sqneg",
    SQDMULH 40 "sqdmulh",
    SQRDMULH 41 "sqrdmulh",
    SQDMULL 42 "sqdmull",
    SQDMLAL 43 "sqdmlal",
    SQDMLSL 44 "sqdmlsl",
    SQDMULL2 45 "sqdmull2",
    SQDMLAL2 46 "sqdmlal2",
    SQDMLSL2 47 "sqdmlsl2",
    SQDMULLE 48 "sqdmull",
    SQDMLALE 49 "sqdmlal",
    SQDMLSLE 50 "sqdmlsl",
    SQDMULL2E 51 "sqdmull2",
    SQDMLAL2E 52 "sqdmlal2",
    SQDMLSL2E 53 "sqdmlsl2",
    SUQADD 54 "suqadd",
    USQADD 55 "usqadd",
    SABD 56 "sabd",
    UABD 57 "uabd",
    SABA 58 "saba",
    UABA 59 "uaba",
    CNT 60 "cnt",
    CLZ 61 "clz",
    CLS 62 "cls",
    RBIT 63 "rbit",
    ADDHN 64 "addhn",
    RADDHN 65 "raddhn",
    SUBHN 66 "subhn",
    RSUBHN 67 "rsubhn",
}

impl Operation {
    pub fn number(self) -> u64 {
        self as u64
    }

    /// The operation of a number, if there is one.
    pub fn of(number: u64) -> Option<Self> {
        Self::ALL.into_iter().find(|operation| operation.number() == number)
    }
}

impl fmt::Display for Operation {
    fn fmt(&self, f: &mut fmt::Formatter<'_>) -> fmt::Result {
        f.write_str(self.mnemonic())
    }
}

/// The arrangements by their numbers: how many lanes of which bits a destination has.
#[derive(Debug, Clone, Copy, PartialEq, Eq, Hash)]
#[repr(u64)]
pub enum Arrangement {
    B8 = 0,
    B16 = 1,
    H4 = 2,
    H8 = 3,
    S2 = 4,
    S4 = 5,
    D2 = 6,
}

impl Arrangement {
    pub const ALL: [Self; 7] = [Self::B8, Self::B16, Self::H4, Self::H8, Self::S2, Self::S4, Self::D2];

    pub fn number(self) -> u64 {
        self as u64
    }

    /// The arrangement of a number, if there is one.
    pub fn of(number: u64) -> Option<Self> {
        Self::ALL.into_iter().find(|arrangement| arrangement.number() == number)
    }
}

impl fmt::Display for Arrangement {
    /// As the assembler writes it after a register: `8b` to `2d`.
    fn fmt(&self, f: &mut fmt::Formatter<'_>) -> fmt::Result {
        f.write_str(["8b", "16b", "4h", "8h", "2s", "4s", "2d"][*self as usize])
    }
}
