//! A stand-in: the constants and the few methods that the table files use.
#[macro_export]
macro_rules! bitflags {
    (impl $t:ident : $b:ty { $( $(#[$m:meta])* const $n:ident = $v:expr; )* }) => {
        #[allow(dead_code)]
        impl $t {
            $( $(#[$m])* pub const $n: $t = $t($v); )*
            pub const fn empty() -> $t { $t(0) }
            pub const fn bits(&self) -> $b { self.0 }
            pub const fn contains(&self, o: $t) -> bool { self.0 & o.0 == o.0 }
            pub fn insert(&mut self, o: $t) { self.0 |= o.0 }
            pub const fn difference(&self, o: $t) -> $t { $t(self.0 & !o.0) }
            pub const fn union(self, o: $t) -> $t { $t(self.0 | o.0) }
        }
    };
}
