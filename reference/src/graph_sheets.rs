//! Systems with targets that were followed by hand through the folded graph, as data for the tests and for
//! the comparison.

/// The words of a system, a target, and whether it is a member.
type GraphSheet = (&'static [&'static str], &'static str, bool);

/// The systems with their targets, those of the worked sheets on reduce, member and ask first.
pub const GRAPH_SHEETS: [GraphSheet; 52] = [
    (&["ab", "b"], "a", true),
    (&["aa", "aaa"], "a", true),
    (&["ab", "ac", "Bd"], "Cd", true),
    (&["ab", "ac", "Bd"], "d", false),
    (&["a", "BAc", "dbb"], "adbAcACaBD", true),
    (&["ab"], "ba", false),
    (&[], "", true),
    (&[], "a", false),
    (&["ab", "ab"], "abab", true),
    (&["ab", "ac", "ad"], "Cd", true),
    (&["ab", "ac", "ad"], "d", false),
    (&["cC", "aAb"], "bcCb", true),
    // No words: the graph is the base point alone.
    (&[], "aA", true),
    (&["", "abBA"], "", true),
    (&["", "abBA"], "b", false),
    (&["aA", "b"], "bb", true),
    (&["aA", "b"], "aAb", true),
    (&["aA", "b"], "a", false),
    // One loop of two edges: a leaves the base, b enters it.
    (&["ab"], "", true),
    (&["ab"], "abab", true),
    (&["ab"], "BABA", true),
    (&["ab"], "baab", false),
    (&["ab"], "a", false),
    (&["ab"], "aBAb", false),
    (&["zY"], "yZ", true),
    (&["zY"], "Zy", false),
    (&["abab"], "abababab", true),
    (&["abab"], "ab", false),
    // Targets and words that are not freely reduced.
    (&["b"], "aAb", true),
    (&["b"], "aBbAb", true),
    (&["b"], "abA", false),
    (&["aAb"], "aAb", true),
    (&["abA"], "abbA", true),
    (&["abA"], "aAabAaA", true),
    (&["abA"], "b", false),
    // Edges that leave one point: the common beginning ab is one path.
    (&["abc", "abd"], "Cd", true),
    (&["abc", "abd"], "cD", false),
    (&["a", "ab", "abc"], "c", true),
    // Edges that enter one point: the common end b is one edge, and a and c lead to where it leaves.
    (&["ab", "cb"], "aC", true),
    (&["ab", "cb"], "ac", false),
    (&["ab", "cb"], "Ac", false),
    // The point that b leaves is folded into the base: a loop aa and a loop b are left.
    (&["aab", "b"], "aa", true),
    (&["aab", "b"], "a", false),
    (&["aab", "b"], "abA", false),
    // Edges at both ends: a from the base to a point, aB from there to another, and b back.
    (&["aabb", "ab"], "aabA", true),
    (&["aabb", "ab"], "ba", false),
    // Two points, which a exchanges and b keeps: the words in a and b with an even number of a and A.
    (&["aa", "b", "abA"], "aba", true),
    (&["aa", "b", "abA"], "aBBa", true),
    (&["aa", "b", "abA"], "bAbbA", true),
    (&["aa", "b", "abA"], "ab", false),
    // One point with two loops: all words.
    (&["ab", "b"], "bbaBAAb", true),
    (&["ab", "b"], "c", false),
];
