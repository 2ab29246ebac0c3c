//! The examples that the documents give: RFC 9804's canonical expressions.

/// The canonical examples of RFC 9804 or its forerunners, in its order.
pub fn canonical() -> [&'static str; 12] {
    [
        "(6:issuer3:bob)",
        "(4:icon[12:image/bitmap]9:xxxxxxxxx)",
        "(7:subject(3:ref5:alice6:mother))",
        "7:subject",
        "12:hello world!",
        "0:",
        "3:abc",
        "()",
        "(1:a1:b1:c)",
        "4:::::",
        "10:abcdefghij",
        "(11:certificate(6:issuer3:bob)(7:subject5:alice))",
    ]
}
