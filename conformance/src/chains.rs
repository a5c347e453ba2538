//! Chains of digests: each is the digest of the one before it, and the first
//! that of the empty message.

/// How many links both stored digests of a chain have.
pub const LINKS: [usize; 2] = [100, 3000];

/// Link 100 and link 3000 of each variant's chain. They are what the Rust
/// version built apart gives (`cargo run --release --bin chains`).
pub const ENDS: [[&str; 2]; 11] = [
    ["659272faae6172377275", "33e9d32c49aa20c5ad36"],
    [
        "f4d1566198aa3bd4fb4cb78f7bd24dfc",
        "99978ab89ac58c8385a59cc397272276",
    ],
    [
        "91d582d90d5b0bb4b76919c939710712131e5063",
        "c9bfacee0d47a300ec740c227fabb4b090154f3b",
    ],
    [
        "33d4aa47919c30327672d942c14525197a113204fe7ef10ec36daf4e",
        "ead3c792dd97e635ddd89465dbe1941468cb0a5f03bc72413d30210b",
    ],
    [
        "496d3ae5366fb8b32e33ba5ea8bf25c935a12e2f31d82b44db7c86f834551348",
        "987716a5c3ffa2f83e37ec04b2e60db72d1b7d862b4dccda44f90adde25c6449",
    ],
    ["18e3318ccc53cab63dd303", "c1b21a25b29398d5522e71"],
    [
        "516aec339689a2184321a455f1f851b6",
        "5d81ab5b699f08b3cfbfaa8b0ead37ea",
    ],
    [
        "5844a00932de88bb4f0c9d3eef2166b05e240deb",
        "032c573dc50d78480483b47062d794e3ed2de67c",
    ],
    [
        "95e96a90e5cf096886b6296cea84acdfd84ff20d05796ad531ed8138",
        "f017b8a78520ac03883c45d3ba6aa8ce6b1b6781b8dbfd55ded1d7af",
    ],
    [
        "dda7afeedd45bb3349f1a81393c5779b5fa4ecd561810d7cde47f8bdf32bdca0",
        "f89ae04daefda54578a52d3dfac78bc00c3d3176452498449b42f1952dbb4d25",
    ],
    [
        "7571449b87f9e967889c03513e6ccccfb0f6ba16846949b7943a4951d1180708",
        "0a453417ac748c2bc95c43edadf2001764673e6ab4fb24a978e2aee1073d8954",
    ],
];

/// The digests of a chain, made by the function given.
pub fn chain(digest: impl Fn(&[u8]) -> Vec<u8>) -> impl Iterator<Item = Vec<u8>> {
    std::iter::successors(Some(digest(b"")), move |former| Some(digest(former)))
}

/// Link 100 and link 3000, or the first alone.
pub fn ends(digest: impl Fn(&[u8]) -> Vec<u8>, count: usize) -> Vec<String> {
    let mut links = chain(digest).zip(1..);
    LINKS[..count]
        .iter()
        .map(|&link| links.find(|&(_, at)| at == link).expect("no end").0)
        .map(|digest| hexadecimal(&digest))
        .collect()
}

/// Lower-case hexadecimal.
pub fn hexadecimal(bytes: &[u8]) -> String {
    bytes.iter().map(|byte| format!("{byte:02x}")).collect()
}
