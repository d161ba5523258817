//! The calls of ours, as closures over the index of an input and what is written to. What stands after the values' name goes
//! between the shape and the numbers; what stands after a semicolon is written to beside the shape.

/// One value in, and one out.
macro_rules! one {
    ($call:ident, $v:expr $(, $more:expr)* $(; $also:ident)?) => {
        |i: usize, to: &mut Lent| {
            let (v, a) = (&$v, &$v.numbers[i]);
            let (out, room) = (to.out.as_mut_ptr(), to.out.len());
            let shape = to.shape.as_mut_ptr();
            unsafe { sys::$call(v.shape.as_ptr(), $($more,)* a.as_ptr(), a.len(), out, room, shape $(, &mut to.$also)?) }
        }
    };
}

/// Two values in, the second one of `$w` and of the next index, and one out.
macro_rules! two {
    ($call:ident, $v:expr, $w:expr $(; $also:ident)?) => {
        |i: usize, to: &mut Lent| {
            let (v, w) = (&$v, &$w);
            let (a, b) = (&v.numbers[i], &w.numbers[(i + 1) % INPUTS]);
            let (left, right) = (v.shape.as_ptr(), w.shape.as_ptr());
            let (out, room) = (to.out.as_mut_ptr(), to.out.len());
            let shape = to.shape.as_mut_ptr();
            unsafe {
                sys::$call(left, right, a.as_ptr(), a.len(), b.as_ptr(), b.len(), out, room, shape $(, &mut to.$also)?)
            }
        }
    };
}

/// One value in, and out come only the numbers that are named.
macro_rules! asked {
    ($call:ident, $v:expr $(, $more:expr)* ; $($also:ident),*) => {
        |i: usize, to: &mut Lent| {
            let (v, a) = (&$v, &$v.numbers[i]);
            unsafe { sys::$call(v.shape.as_ptr(), $($more,)* a.as_ptr(), a.len(), $(&mut to.$also),*) }
        }
    };
}

/// Two values in, and one number out.
macro_rules! compared {
    ($call:ident, $v:expr, $w:expr, $next:expr ; $also:ident) => {
        |i: usize, to: &mut Lent| {
            let (v, w) = (&$v, &$w);
            let (a, b) = (&v.numbers[i], &w.numbers[(i + $next) % INPUTS]);
            let (left, right) = (v.shape.as_ptr(), w.shape.as_ptr());
            unsafe { sys::$call(left, right, a.as_ptr(), a.len(), b.as_ptr(), b.len(), &mut to.$also) }
        }
    };
}

/// One value in, and out a list of its numbers.
macro_rules! unpacked {
    ($call:ident, $v:expr $(, $d:expr)?) => {
        |i: usize, to: &mut Lent| {
            let (v, a) = (&$v, &$v.numbers[i]);
            let (out, room) = (to.out.as_mut_ptr(), to.out.len());
            unsafe { sys::$call(v.shape.as_ptr(), $($d,)? a.as_ptr(), a.len(), out, room, &mut to.count) }
        }
    };
}

/// A list of numbers in, and one value out: the numbers and the flavor, or the shape and the numbers.
macro_rules! built {
    ($call:ident, $lists:expr => $flavor:expr) => {
        |i: usize, to: &mut Lent| {
            let v = &$lists[i];
            let (out, room) = (to.out.as_mut_ptr(), to.out.len());
            unsafe { sys::$call(v.as_ptr(), v.len(), $flavor.as_ptr(), out, room, to.shape.as_mut_ptr()) }
        }
    };
    ($call:ident, $shape:expr, $lists:expr) => {
        |i: usize, to: &mut Lent| {
            let v = &$lists[i];
            let (out, room) = (to.out.as_mut_ptr(), to.out.len());
            unsafe { sys::$call($shape.as_ptr(), v.as_ptr(), v.len(), out, room, to.shape.as_mut_ptr()) }
        }
    };
}
