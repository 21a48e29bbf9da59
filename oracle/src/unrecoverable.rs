//! What Hopter's `unrecoverable` offers to the two files, with a panic where it loops for ever.
pub trait Lethal {
    type T;
    fn unwrap_or_die(self) -> Self::T;
}

impl<T, E> Lethal for Result<T, E> {
    type T = T;

    fn unwrap_or_die(self) -> T {
        self.unwrap_or_else(|arg| die_with_arg(arg))
    }
}

impl<T> Lethal for Option<T> {
    type T = T;

    fn unwrap_or_die(self) -> T {
        self.unwrap_or_else(|| die())
    }
}

pub fn die() -> ! {
    panic!()
}

pub fn die_with_arg<T>(_arg: T) -> ! {
    die()
}
