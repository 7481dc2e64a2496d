/// A host, as a server knows it.
pub struct Peer {
    pub address: IpAddr,
    pub listens: SocketAddrV4,
    pub key: [u8; 4],
    pub waiting: VecDeque<u16>,
    pub names: BoxedSlice<String>,
    pub domain: RcStr,
    pub weight: NonZeroU16,
    pub seen: Duration,
}
