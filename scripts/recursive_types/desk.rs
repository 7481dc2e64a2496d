/// A desk, and what waits at it.
pub struct Desk {
    pub id: Uuid,
    pub label: ArrayString<12>,
    pub open: ArrayVec<u8, 4>,
    pub waiting: BinaryHeap<u32>,
}
