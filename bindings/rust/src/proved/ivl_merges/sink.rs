// Written by bindings/rust/extract from crates/ivl_merges/src/sink.rt.
//! Where a merge writes its answer: the caller's slice, or a list in reserved room.

#[allow(unused_imports)]
use crate::rattle::prelude::*;
use crate::proved::ivl_merges::pair::Pair;
use crate::proved::ivl_interval::width::Width;
use crate::rattle::std::hint::select_unpredictable;

/// A list of runs that grows at its end, from where it was empty on. What stands past the list stays as
/// it was.
///
/// Words and laws of the contracts:
///
/// ```text
/// count: { Self → ℕ }
/// room: { Self → ℕ }
/// holds: { Self → Self → List (ℤ × ℤ) → Type 0 }
/// begins: { Self → Self → List (ℤ × ℤ) → Type 0 }
/// repeats: { Self → Type 0 }
/// ```
pub trait Sink<R: Pair> {
    /// Adds a run. `O(1)`.
    ///
    /// # Proved
    ///
    /// The run is added at the end of the list, one more is counted, and the room stays.
    ///
    /// ```text
    /// requires { count self.old < room self.old }
    /// ensures list { (start : Self) → AddsAtEnd (R.pair run) (holds start self.old) (holds start self.new) }
    /// ensures count { count self.new ≡ count self.old + 1 }
    /// ensures room { room self.new ≡ room self.old }
    /// ```
    ///
    /// Words: [`AddsAtEnd`](crate::definitions#AddsAtEnd).
    fn push(&mut self, run: R);

    /// Adds a run, in the place of the last one if a condition holds. `O(1)`.
    ///
    /// # Proved
    ///
    /// The run takes the place of the last one if `is_over`; else it is added at the end, and one more is counted. The room stays.
    ///
    /// ```text
    /// requires room { count self.old < room self.old }
    /// requires last { from_bool is_over ≤ count self.old }
    /// ensures list { (start : Self) → AddsOver is_over (R.pair run) (holds start self.old) (holds start self.new) }
    /// ensures count { count self.new + from_bool is_over ≡ count self.old + 1 }
    /// ensures room { room self.new ≡ room self.old }
    /// ```
    ///
    /// Words: [`AddsOver`](crate::definitions#AddsOver).
    fn push_over(&mut self, is_over: bool, run: R);

    /// Adds a run unless it is crossed. `O(1)`.
    ///
    /// # Proved
    ///
    /// The run is added at the end of the list unless it is crossed; at most one more is counted, `repeats` holds still, and the room stays.
    ///
    /// ```text
    /// requires room { count self.old < room self.old }
    /// requires repeats { repeats self.old }
    /// ensures list { (start : Self) → AddsFilled (R.pair run) (holds start self.old) (holds start self.new) }
    /// ensures repeats { repeats self.new }
    /// ensures count { count self.new ≤ count self.old + 1 }
    /// ensures room { room self.new ≡ room self.old }
    /// ```
    ///
    /// Words: [`AddsFilled`](crate::definitions#AddsFilled).
    fn push_filled(&mut self, run: R);

    /// Writes a run at the index `place`, the last one or the next, if it `is_filled`: the list ends there then.
    /// What stands after it has to be dropped by `cut`. `O(1)`.
    ///
    /// # Proved
    ///
    /// A list of `place` runs, or of one more, has the run at `place` as its last one if `is_filled`; if not, a list of `place` runs stays. The room stays.
    ///
    /// ```text
    /// requires { place < room self.old }
    /// ensures list { (start : Self) → PutsAt place is_filled (R.pair run) (begins start self.old) (begins start self.new) }
    /// ensures room { room self.new ≡ room self.old }
    /// ```
    ///
    /// Words: [`PutsAt`](crate::definitions#PutsAt).
    fn put_if(&mut self, place: usize, is_filled: bool, run: R);

    /// Keeps the first `kept` runs, which are all that were written. `O(1)`.
    ///
    /// # Proved
    ///
    /// A list of `kept` runs that was begun is what the sink holds and counts. The room stays.
    ///
    /// ```text
    /// ensures list { (start : Self) (L : List (ℤ × ℤ)) → begins start self.old L → kept ≡ length L → holds start self.new L × (count self.new ≡ kept) }
    /// ensures room { room self.new ≡ room self.old }
    /// ```
    fn cut(&mut self, kept: usize);
}

/// A list in reserved room: no call reserves.
///
/// Proved, with these words of the trait:
///
/// ```text
/// count = { λ v. vec_len v }
/// room = { λ v. vec_capacity v }
/// holds = { λ s t L. map R.pair t.items ≡ L }
/// begins = { λ s t L. (take (length L) (map R.pair t.items) ≡ L) × (length L ≤ vec_len t) }
/// repeats = { λ v. Unit {0} }
/// ```
impl<R: Pair> Sink<R> for Vec<R> {
    fn push(&mut self, run: R) {
        self.push_reserved(run);
    }

    fn push_over(&mut self, is_over: bool, run: R) {
        self.truncate(self.len() - usize::from(is_over));
        self.push_reserved(run);
    }

    fn push_filled(&mut self, run: R) {
        // written, and dropped again if it is crossed: no branch hangs on the values
        self.push_reserved(run);
        self.truncate(self.len() - usize::from(run.upper() < run.lower()));
    }

    fn put_if(&mut self, place: usize, _is_filled: bool, run: R) {
        self.truncate(place);
        self.push_reserved(run);
    }

    fn cut(&mut self, kept: usize) {
        self.truncate(kept);
    }
}

/// A list that stands in the first elements of a slice, as far as it has room, and the number of all runs.
///
/// ```
/// use intervallum::proved::examples::*;
///
/// fn main() -> Result<(), std::boxed::Box<dyn std::error::Error>> {
///     let alloc = Global;
///     // both runs are counted, and the one that has room is written
///     let mut buffer = [Interval::new(0u8, 0)];
///     let mut places = Places::new(&mut buffer);
///     merges::complement(&[Interval::new(4, 9)], &mut places);
///     assert!(places.count() == 2);
///     assert!(buffer == [Interval::new(0, 3)]);
///     Ok(())
/// }
/// ```
pub struct Places<'a, R: Pair> {
    pub out: &'a mut [R],
    pub count: usize,
    // what stands at the last place of the list, or at the first of the slice if the list is empty
    pub last: R,
}

impl<'a, R: Pair> Places<'a, R> {
    /// Returns an empty list. `O(1)`.
    ///
    /// # Proved
    ///
    /// The slice is the one that was lent, as it is, with no run counted; `last` is its first element, if there is one.
    ///
    /// ```text
    /// ensures same { result.out.ghost_name ≡ out.entry.ghost_name }
    /// ensures now { result.out.now ≡ out.old }
    /// ensures count { result.count ≡ 0 }
    /// ensures last { Stands (R.pair result.last) (map R.pair out.old) 0 }
    /// ```
    ///
    /// Words: [`Stands`](crate::definitions#Stands).
    pub fn new(out: &'a mut [R]) -> Places<'a, R> {
        let last = first_or_any(out);
        Places {
            out,
            count: 0,
            last,
        }
    }

    /// Gives the slice back, and returns the number of all runs. `O(1)`.
    ///
    /// # Proved
    ///
    /// The result is the number of runs that were counted, and the slice is given back as it is.
    ///
    /// ```text
    /// ensures count { result ≡ self.entry.count }
    /// ensures left { self.exit.0.now ≡ self.entry.out.now }
    /// ```
    pub fn count(self) -> usize {
        let Places {
            out: _,
            count,
            last: _,
        } = self;
        count
    }
}

/// Proved, with these words of the trait:
///
/// ```text
/// count = { λ s. s.count }
/// room = { λ s. 2 ^ 63 }
/// holds = { λ s t L. (t.out.ghost_name ≡ s.out.ghost_name) × (t.count ≡ length L) × (map R.pair t.out.now ≡ laid L (map R.pair s.out.now)) }
/// begins = { λ s t L. (t.out.ghost_name ≡ s.out.ghost_name) × (map R.pair t.out.now ≡ laid L (map R.pair s.out.now)) }
/// repeats = { λ s. Stands (R.pair s.last) (map R.pair s.out.now) s.count }
/// ```
///
/// Words: [`laid`](crate::definitions#laid), [`Stands`](crate::definitions#Stands).
impl<R: Pair> Sink<R> for Places<'_, R> {
    fn push(&mut self, run: R) {
        put(self.out, self.count, run);
        self.count += 1;
    }

    fn push_over(&mut self, is_over: bool, run: R) {
        let place = self.count - usize::from(is_over);
        put(self.out, place, run);
        self.count = place + 1;
    }

    /// The last run is written once more where it stands if the pair is crossed: so each step of a loop
    /// writes, and none reads the slice, which would wait for what the step before has written. `O(1)`.
    ///
    /// # Proved
    ///
    /// What [`Sink::push_filled`] says, by the words of the type.
    fn push_filled(&mut self, run: R) {
        let is_filled = run.lower() <= run.upper();
        self.last = select_unpredictable(is_filled, run, self.last);
        self.count += usize::from(is_filled);
        let place = self.count.saturating_sub(1);
        put(self.out, place, self.last);
    }

    /// A compiler may choose by a jump, since what stands there is read: this serves where the
    /// condition nearly always holds. `O(1)`.
    ///
    /// # Proved
    ///
    /// What [`Sink::put_if`] says, by the words of the type.
    fn put_if(&mut self, place: usize, is_filled: bool, run: R) {
        put_by(self.out, place, run, is_filled);
    }

    fn cut(&mut self, kept: usize) {
        self.count = kept;
    }
}

/// The pair at the first place of the buffer, or any pair if it has no place.
fn first_or_any<R: Pair>(out: &[R]) -> R {
    if out.is_empty() {
        let any = R::Bound::min_value();
        return R::of(any, any);
    }
    out[0]
}

/// Writes a pair at a place of the buffer, if a condition holds and there is such a place.
fn put_by<R: Pair>(out: &mut [R], place: usize, run: R, condition: bool) {
    if place < out.len() {
        out[place] = select_unpredictable(condition, run, out[place]);
    }
}

/// Writes a pair at a place of the buffer, if there is such a place.
fn put<R: Pair>(out: &mut [R], place: usize, run: R) {
    if place < out.len() {
        out[place] = run;
    }
}
