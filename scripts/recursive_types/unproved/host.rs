/// A host and those behind it.
pub struct Host<'a> {
    pub lists: Lists,
    pub texts: Texts<'a>,
    pub addresses: VecDeque<Address>,
    pub order: Ordering,
    pub marker: PhantomData<Vec<u8>>,
    pub hops: [i16; 3],
    pub name: CowStr<'a>,
    pub first: IpAddr,
    pub behind: Vec<Host<'a>>,
}

/// Lists of each kind besides `Vec`, arrays, long tuples and ranges.
pub struct Lists {
    pub queue: VecDeque<i16>,
    pub linked: LinkedList<char>,
    pub boxed: BoxedSlice<u8>,
    pub counted: RcSlice<bool>,
    pub shared: ArcSlice<[u32; 2]>,
    pub none: [String; 0],
    pub nine: (u8, bool, char, u16, i32, f64, u64, String, i8),
    pub sixteen: (u8, u8, u8, u8, u8, u8, u8, u8, u8, u8, u8, u8, u8, u8, u8, i16),
    pub ends: Range<i64>,
    pub within: RangeInclusive<char>,
    pub limits: Limits,
    pub noted: Noted,
}

/// Types that have fewer values than their nodes.
pub struct Limits {
    pub took: Duration,
    pub count: NonZeroU64,
    pub offset: NonZeroI16,
    pub size: NonZeroUsize,
}

/// Types that say more of their data than the columns do.
pub struct Noted {
    pub id: Uuid,
    pub few: ArrayVec<u16, 4>,
    pub short: ArrayString<8>,
    pub heap: BinaryHeap<u32>,
    pub names: BTreeMap<Uuid, ArrayString<4>>,
}

/// Texts of each kind besides `String` and `&str`.
pub struct Texts<'a> {
    pub boxed: BoxedStr,
    pub counted: RcStr,
    pub shared: ArcStr,
    pub borrowed: CowStr<'a>,
}

/// Addresses.
pub enum Address {
    Four(Ipv4Addr),
    Six(Ipv6Addr),
    Either(IpAddr, IpAddr),
    Port { four: SocketAddrV4, six: SocketAddrV6, either: SocketAddr },
}
