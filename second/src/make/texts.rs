//! TPTP texts that have a name: every production of the grammar and its neighbours, every decision that was taken and
//! every trap. A formula is asked as an axiom and as a conjecture.

/// Formulas, sound and not, in the part and outside.
#[rustfmt::skip]
const FORMULAS: &[&str] = &[
    // connectives, and that none binds closer than another
    "$true", "p", "p & q", "p & q & r", "p & q & r & s", "p | q", "p | q | r", "p & q | r", "p | q & r", "p & q => r",
    "p => q", "p => q & r", "p => q | r", "p => q => r", "p => (q => r)", "(p => q) => r", "p <=> q", "p <=> q <=> r",
    "p <= q", "p <~> q", "p ~| q", "p ~& q", "p => q <= r", "~ p", "~ ~ p", "~~~p", "~p & q", "~ (p & q)", "p & ~ q",
    "p & ~ ~ q | r", "p &", "& p", "p & & q", "p q", "p => ", "=> p", "p = > q", "p < = q", "p <= > q", "p ~ | q",
    "p ~ & q", "p | ~ | q", "p | ~| q", "p & ~ | q", "p || q", "p && q",
    // quantifiers take one unit
    "! [X] : p(X)", "? [X] : p(X)", "! [X,Y] : p(X,Y)", "? [X,Y] : p(Y,X)", "! [X,Y,Z] : r(Z,X,Y)", "! [X,X] : p(X)",
    "? [X,Y,X] : p(X,Y)", "! [X] : ? [X] : p(X)", "! [X] : ? [Y] : p(X,Y)", "! [X] : ! [Y] : ? [Z] : p(X,Y,Z)",
    "! [X] : ((? [X] : p(X)) & q(X))", "! [X] : (q(X) & ? [X] : p(X))", "! [X] : (? [X] : p(X) & q(X))", "! [X] : p",
    "? [X,Y] : p(Y)", "! [X] : p(X) & q", "! [X] : p(X) & q(X)", "! [X] : p(X) => q(X)", "! [X] : p(X) => q",
    "! [X] : (p(X) => q(X))", "! [X] : (p(X) & q(X))", "p => ? [X] : q(X)", "p => ! [X] : q(X)", "p & ! [X] : q(X)",
    "p & ! [X] : q(X) & r", "p | ? [X] : q(X) | r", "! [X] : ~ p(X)", "! [X] : $true", "! [] : p", "! [X : $i] : p(X)",
    "! [X:$i] : p(X)", "! [x] : p", "! [X] p(X)", "! X : p(X)", "![X]:p(X)", "?[X]:p(X)", "! [X,] : p", "! [,X] : p",
    "! [X Y] : p", "! [X]", "! [X] :", "! ! [X] : p", "! [1] : p", "! ['X'] : p", "! (X) : p", "! [X] : : p",
    "!! [X] : p(X)", "? ! [X] : p", "! [_X] : p", "! [X_] : p(X_)", "! [Xy_1] : p(Xy_1)", "! [X] : p(Y)",
    "! [X] : (p(X) => ? [Y] : q(X,Y))",
    "! [Any_Name_of_more_than_thirty_two_octets_1] : p(Any_Name_of_more_than_thirty_two_octets_1)", "p(X)", "p(f(X))",
    "! [X] : p(f(X,g(a)))", "! [X] : p(f(X,g(Y)))", "(! [X] : p(X)) & q(X)", "p => p(X)",
    // parentheses
    "(p)", "((p))", "(((p & q)))", "(p) & (q)", "((p) & q) & r", "p & (q & r)", "p & (q | r)", "(p | q) & r",
    "(p & q) | (r & s)", "(p & q & r) & s", "()", "(p", "p)", "(p))", "(p & q", "p & (q", "(p) q", "(p)(q)", "( p ) ",
    // atoms and terms
    "p(a)", "p(a,b)", "p(f(a),g(b,c))", "p(f(f(f(a))))", "p (a)", "p\t(\na\r)", "p( a , b )", "p(a,)", "p(,a)", "p()",
    "p(a b)", "p(a", "p a)", "p(a)(b)", "p((a))", "p(q & r)", "p(~ q)", "$ite(p & q,a,b)", "p(! [X] : q(X))",
    "p(p,p(p),p(p,p))", "p & p(a) & p(a,b)", "top(fof,axiom)", "imp", "all & some & or", "v(f,e)", "rules => terms",
    "X", "! [X] : X", "X & p", "X(a)", "! [X] : X(a)", "P(a)", "P",
    // equality
    "a = b", "a != b", "a=b", "a!=b", "X = Y", "! [X] : X = X", "! [X] : (X = a => p(X))", "a != b & p", "~ a = b",
    "~ a != b", "(a) = b", "a = (b)", "(a = b)", "a = b = c", "a = b & c = d", "f(a) = g(b)", "a ! = b", "a = ", "= a",
    "! = p", "!= p", "p => a = b", "! [X] : a = X", "p = q & r", "a == b",
    // names that are no names of ours
    "isShut", "p(isShut)", "p(f(isShut))", "a_b_1", "a__", "_a", "a-b", "x0123456789012345678901234567890",
    "x01234567890123456789012345678901", "p(x01234567890123456789012345678901)", "aZ", "a1Z", "1a", "a.b", "a:b",
    "'p'", "p('a')", "'p'(a)", "'P'", "'it s'", "''", "p('')", "'it\\'s'", "'a\\\\b'", "'a\\b'", "'a\\", "'a",
    "'a\nb'", "'a\tb'", "'fof'", "'p' & q", "'a''b'", "'\"'", "'%'", "'/*'",
    // dollar words
    "$false", "$true & p", "$true | p", "$true(a)", "p($true)", "p($false)", "$truex", "$true1", "$tru", "$foo",
    "$foo(a)", "$foo(X)", "$$foo", "$$foo(X)", "p($$foo)", "$True", "$1", "$", "$ true", "$$", "$$Foo", "$$$foo",
    "$_a", "$true = $true", "~ $true", "$distinct(a,b)",
    // numbers and distinct objects
    "1", "1 = 1", "1 != 2", "p(1)", "p(-1)", "p(+1)", "p(0)", "p(-0)", "p(00)", "p(01)", "p(1.5)", "p(1.50)", "p(0.0)",
    "p(1.)", "p(.5)", "p(1/2)", "p(1/0)", "p(1/02)", "p(0/1)", "p(-1/20)", "p(1/-2)", "p(1e5)", "p(1E5)", "p(1e+05)",
    "p(1.5E-05)", "p(1e)", "p(1e+)", "p(1.e5)", "p(- 1)", "p(+ 1)", "p(+)", "p(-)", "p(--1)", "p(1 2)", "p(1a)",
    "p(1.5.6)", "p(1/2/3)", "1(a)", "p(1/*c*/)", "p(1/**/2)", "\"d\"", "\"d\" = \"e\"", "\"\" = \"\"", "p(\"\")",
    "p(\"d\")", "p(\"a\\\"b\")", "p(\"a\\\\b\")", "p(\"a\\b\")", "p(\"a)", "p(\"'\")", "\"d\"(a)", "p(\"%\")",
    "p(\"\t\")",
    // clauses and goals
    "$true => q", "q => $true", "q & $true", "q | r", "? [X] : q(X)", "q => (r & t)", "q => (r => t)", "q => (r | t)",
    "q => ! [X] : r(X)", "q => ? [X] : r(X)", "(p | q) => r", "(? [X] : p(X)) => r", "(! [X] : p(X)) => r",
    "(p & q) => r", "((p => q) & r) => s", "((p => q) => r) => s", "(p => (q & r)) => s", "(p => (q => r)) => s",
    "($true => q) => r", "($true & q) => r", "! [X] : (p(X) & ! [Y] : (q(X,Y) => r(Y)))",
    "! [X] : ((p(X) | q(X)) => r(X))", "! [X] : (? [Y] : q(X,Y) => r(X))", "! [X] : (q(X) => ? [Y] : r(X,Y))",
    "! [X] : ((s(X) => ? [Y] : q(X,Y)) => r(X))", "! [X] : ((! [Y] : s(X,Y) => q(X)) => r(X))",
    "(p & (q => r)) & ! [X] : s(X)", "(p => q) & (q => p)", "(p => q) | r", "p & (q => r) & (r | s)",
    // sequents
    "[p] --> [q]", "[] --> []", "[ ] --> [ ]", "{p} --> {q}", "{} --> []", "[p,q & r] --> [~ s]", "([p] --> [q])",
    "(([] --> [p]))", "([p] --> [q]) & r", "~ ([p] --> [q])", "[p]", "[p] --> q", "p --> q", "[p} --> [q]",
    "[p] --> [q] --> [r]", "[p,] --> [q]", "[[p]] --> [q]", "[[p] --> [q]] --> [r]", "([p]) --> [q]", "([p] --> [q]",
    "[p] -- > [q]", "[p] - -> [q]", "[p] & q", "[a = b] --> [X != a]",
    // comments and spaces
    "p/**/q", "p/**/& q", "p & /* q & */ r", "p % c\n& q", "p %c\r& q", "p %c\r\n& q", "p % & q", "p/*", "p/*/",
    "p/* *", "p /* * / */", "p/* % */", "p % /* \n", "p /* a /* b */", "p /* a /* b */ */", "p /***/", "p /**",
    "! /* c */ [X] : p(X)", "p/*c*/(a)", "p//q", "p / q", "p */ q", "p %$ c\n", "/*$$x*/p", "p\x0b&\x0cq", "p\x00",
    "p\x01& q", "p\x1a", "p\x7f", "p/*\x00\x01*/", "p %\x00\x7f\n", "~/**/|", "p =/**/> q", "$/**/true", "p(a/**/b)",
    // other languages
    "^ [X] : p", "p @ q", "@", "p \\ q", "p ; q", "p # q", "p ` q", "!> [X] : p", "p := q", "p >> q", "$let(a,b,c)",
    "p : $i", "? [X] : p(X) . q", "p . q", "p , q", ", p", "p > q", "p < q", "<~> p", "p <~ > q",
];

/// What may stand for the label.
#[rustfmt::skip]
const LABELS: &[&str] = &[
    "a", "17", "0", "-17", "+17", "007", "1.5", "1/2", "'a b'", "'a'", "''", "isShut", "A", "$a", "$$a", "\"a\"",
    "a b", "", "fof", "axiom", "a_1", "_a", "x0123456789012345678901234567890", "x01234567890123456789012345678901",
    "(a)", "a(b)", "- 17",
];

/// What may stand for the role.
#[rustfmt::skip]
const ROLES: &[&str] = &[
    "axiom", "hypothesis", "definition", "assumption", "lemma", "theorem", "corollary", "conjecture",
    "negated_conjecture", "plain", "type", "unknown", "foo", "axiomX", "Axiom", "'axiom'", "1", "$axiom", "",
    "axiom axiom", "axiom-local", "axiom - local", "axiom-f(a,b)", "axiom-[a,b]", "axiom-a:b", "axiom-1", "axiom - 1",
    "axiom-", "axiom--local", "axiom-(a)", "conjecture-x", "axiom(a)", "axiom-$fof(p)",
];

/// What may stand after the formula.
#[rustfmt::skip]
const ANNOTATIONS: &[&str] = &[
    "", ",file('x.p',a)", ",inference(rule,[status(thm)],[a,b])", ",introduced(definition),[x]", ",x,[]", ",x,[a,b:c]",
    ",x,y", ",x,[],[]", ",x,[", ",", ",,x", ",[]", ",[ ]", ",[],[]", ",[a,[b,[c]]]", ",[a,]", ",a:b:c", ",[a]:b",
    ",a:[b]", ",a:", ",:a", ",X", ",X:Y", ",1", ",-1.5", ",\"d\"", ",'q'", ",'q'(a)", ",X(a)", ",1(a)", ",f()",
    ",f(a,)", ",f(g(h),[i:j,K])", ",f(a):g(b)", ",$fof(p & q)", ",$fof([p] --> [q])", ",$fof(p & q | r)", ",$fof(p",
    ",$fof()", ",$fof(X)", ",$fof(~ p):x", ",$cnf(p)", ",$cnf(p | ~ q)", ",$cnf((p))", ",$cnf(((p | q)))",
    ",$cnf(~ (p))", ",$cnf(~ ~ p)", ",$cnf(~ (~ p))", ",$cnf(~ ((p)))", ",$cnf(~ a != b)", ",$cnf(~ (a != b))",
    ",$cnf(a != b | ~ a = b)", ",$cnf(~ (a = b))", ",$cnf(p & q)", ",$cnf((p) | q)", ",$cnf(p | (q))", ",$cnf(X)",
    ",$cnf($false)", ",$cnf(X = Y)", ",$cnf()", ",$fot(a)", ",$fot(f(X,1))", ",$fot(p & q)", ",$fot(\"d\")",
    ",$fot(a,b)", ",$thf(p)", ",$tff(p)", ",$foo(p)", ",$fof", ",$$x", ",$$fof(p)", ",p & q", ",~ p", ",(a)", ",{a}",
    ",a-b", ",f(X):[1,2]:'z'",
];

/// Whole texts.
#[rustfmt::skip]
const TEXTS: &[&str] = &[
    "", " ", "\n", "% c", "% c\n", "%", "/* */", "/**/", "/*", "/*/", "/", "*/", "fof", "fof(", ".", "p",
    "FOF(a,axiom,p).", "Fof(a,axiom,p).", "'fof'(a,axiom,p).", "$fof(a,axiom,p).", "cnf(a,axiom,p).",
    "thf(a,axiom,p).", "tff(a,axiom,p).", "tcf(a,axiom,p).", "tpi(a,axiom,p).", "include('x').", "include('x.p',[a]).",
    "fof(a,axiom,p)", "fof(a,axiom,p)..", "fof(a,conjecture,p). fof", "fof a,axiom,p).", "fof(a axiom,p).",
    "fof(a,axiom p).", "fof(a,axiom).", "fof(a,axiom,).", "fof(,axiom,p).", "fof(a,,p).", "(fof(a,axiom,p)).",
    "fof(a,axiom,p),", "fof(a,axiom,p) fof(b,axiom,q).", "fof (a , conjecture , p) .",
    "\tfof\n(\r a\x0b,\x0cconjecture,p ) . \n", "fof/*1*/(/*2*/a/*3*/,/*4*/conjecture/*5*/,/*6*/p/*7*/)/*8*/./*9*/%10",
    "fof(fof,axiom,fof). fof(axiom,conjecture,axiom).", "fof(a,conjecture,p).fof(b,axiom,q).",
    "fof(a,axiom,p).fof(b,conjecture,q).fof(c,axiom,r).", "fof(a,axiom,p).fof(a,axiom,p).fof(a,conjecture,p).",
    "fof(a,conjecture,p).fof(b,conjecture,q).", "fof(a,conjecture,p).fof(a,conjecture,p).",
    "fof(a,axiom,p).fof(b,axiom,q).", "fof(a,conjecture,p).% c", "fof(a,conjecture,p).% c\nx",
    "% fof(a,conjecture,p).", "/* fof(a,conjecture,p). */", "%\rfof(a,conjecture,p).", "%\nfof(a,conjecture,p).",
    "fof(a,conjecture,p)./* never shut", "fof(a,conjecture,p). /",
    // 12 late before 13 early, and the other way round
    "fof(a,plain,p).fof(b,conjecture,p", "fof(a,axiom,~ p).fof(b,conjecture,p & q | r).",
    "fof(a,axiom,X).fof(b,plain,p).", "fof(a,axiom,p(X)).include('x').",
    "fof(a,conjecture,p & q | r).fof(b,conjecture,~ p).", "fof(a,axiom,p(X)).fof(b,conjecture,p).",
    "fof(a,axiom,$true).fof(b,conjecture,p).", "fof(a,axiom,p).fof(b,conjecture,p(X)).",
    "fof(a,lemma,p).fof(b,conjecture,p).",
    "fof(a,axiom,! [X] : (shut(X) => dry(X))).fof(g,conjecture,shut(p7) => dry(p7)).",
];

/// All of them, as bytes.
pub fn texts() -> Vec<Vec<u8>> {
    let mut all: Vec<String> = TEXTS.iter().map(|text| text.to_string()).collect();
    for formula in FORMULAS {
        all.push(format!("fof(c,conjecture,{formula})."));
        all.push(format!("fof(a,axiom,{formula}).fof(c,conjecture,$true)."));
    }
    for label in LABELS {
        all.push(format!("fof({label},axiom,p).fof(c,conjecture,q)."));
        all.push(format!("fof({label},conjecture,p)."));
    }
    for role in ROLES {
        all.push(format!("fof(a,{role},p).fof(c,conjecture,q)."));
    }
    for annotation in ANNOTATIONS {
        all.push(format!("fof(a,axiom,p{annotation}).fof(c,conjecture,q)."));
    }
    let mut all: Vec<Vec<u8>> = all.into_iter().map(String::into_bytes).collect();
    for byte in 0..=255 {
        all.push([b"fof(c,conjecture,p", &[byte][..], b")."].concat());
        all.push([b"fof(c,conjecture,p%", &[byte][..], b")\n)."].concat());
        all.push([b"fof(c,conjecture,p('a", &[byte][..], b"'))."].concat());
        all.push([b"fof(c,conjecture,p/*", &[byte][..], b"*/)."].concat());
    }
    all
}
