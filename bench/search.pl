% The search of document 01 as meta-interpreters in SWI-Prolog, yes or no: what the desk's search is measured by (bench/README.md).
%   swipl -q -O bench/search.pl -- HOW FOLDER HEIGHT    searches the packet in FOLDER: prints yes or no, the nanoseconds and the inferences of one search
%   swipl -q -O bench/search.pl -- HOW cases            answers every case of a search case file (second/README.md) on standard input, a line each: yes, no, or - if it is not read
% HOW: head   head first: a clause is found by its head, which is unified with the goal before candidates are chosen; then the variables that are only in the body take
%             each candidate, and then the body is proved
%      early  and a conjunct is proved as soon as its variables are chosen
%      table  and what failed and what was proved is kept, by atom, clauses at hand, parameters and height
%      facts  and a variable that is only in the body is chosen by facts, where a conjunct with it has a predicate that only facts are about
% All are exact: the same formulas, candidates from the list alone and none with a parameter that is not open, heights as document 01 counts them.
% Files are read and clauses laid down before the clock starts.
:- use_module(library(lists)).
:- use_module(library(apply)).
:- use_module(library(readutil)).
:- initialization(main, main).

:- dynamic cl/4, fact/3, rule/4, cand/2, ruled/2.

% ---- The carrier: a list is the list of its members, a string an atom.

expression(List) --> "(", !, members(List).
expression(String) --> octets(Codes), { atom_codes(String, Codes) }.

members([]) --> ")", !.
members([M | Ms]) --> expression(M), members(Ms).

octets(Codes) --> digits(Digits), ":", { Digits = [_ | _], number_codes(N, Digits), length(Codes, N) }, Codes.

digits([D | Ds]) --> [D], { D >= 0'0, D =< 0'9 }, !, digits(Ds).
digits([]) --> [].

% ---- Terms and atoms, in the scope Env, nearest quantifier first: `f` is an atom or a compound, `e` k the number k.

term([v, N], Env, T) :- !, atom_number(N, I), nth0(I, Env, T).
term([e, N], _, K) :- !, atom_number(N, K).
term([f, Name | Ts], Env, T) :- applied(Name, Ts, Env, T).

terms([], _, []).
terms([X | Xs], Env, [Y | Ys]) :- term(X, Env, Y), terms(Xs, Env, Ys).

applied(Name, [], _, Name) :- !.
applied(Name, Ts, Env, T) :- terms(Ts, Env, Args), compound_name_arguments(T, Name, Args).

% ---- Goals are laid down as top, at(A), and(G, G), or(G, G), all(X, G), imp(Clauses, G), and choose(K, Tests, Levels) for K `some` in a row.

goal([top], _, _, top).
goal([atom, Name | Ts], Env, _, at(A)) :- applied(Name, Ts, Env, A).
goal([and, F, G], Env, How, and(X, Y)) :- goal(F, Env, How, X), goal(G, Env, How, Y).
goal([or, F, G], Env, How, or(X, Y)) :- goal(F, Env, How, X), goal(G, Env, How, Y).
goal([all, G], Env, How, all(X, Y)) :- goal(G, [X | Env], How, Y).
goal([imp, D, G], Env, How, imp(Cs, Y)) :- clauses(D, Env, [], How, Cs, []), goal(G, Env, How, Y).
goal([some, G], Env, How, choose(K, Tests, Levels)) :- row(How, G, [X | Env], [X], Xs, B, Env2), length(Xs, K), plan(How, Xs, B, Env2, Tests, Levels).

row(How, [some, G], Env, Xs, Zs, B, Env2) :- How \== head, !, append(Xs, [X], Ys), row(How, G, [X | Env], Ys, Zs, B, Env2).
row(_, G, Env, Xs, Xs, G, Env).

% The variables Xs of a goal are to be chosen, outermost first. Tests: the conjuncts without any of them. Levels, one for each: lv(X, Tests) with the conjuncts that can be proved
% then; any if the variable is in no conjunct, so that all that matters is whether there is a candidate. A test has the conjunct's depth in the goal.
plan(How, Xs, G, Env, Tests, Levels) :- conjuncts(How, G, 0, Env, Cs, []), levels(Xs, How, Cs, Tests, Levels).

conjuncts(How, [and, F, G], D, Env, Cs, Es) :- How \== head, !, E is D + 1, conjuncts(How, F, E, Env, Cs, Ds), conjuncts(How, G, E, Env, Ds, Es).
conjuncts(How, G, D, Env, [D-B | Cs], Cs) :- goal(G, Env, How, B).

levels(Xs, How, Cs, Now, Levels) :- parted(Cs, Xs, Now, Later), further(Xs, How, Later, Levels).

parted([], _, [], []).
parted([C | Cs], Xs, Now, Later) :- ( member(X, Xs), has(C, X) -> Later = [C | Ls], parted(Cs, Xs, Now, Ls) ; Now = [C | Ns], parted(Cs, Xs, Ns, Later) ).

further([], _, _, []).
further([X | Xs], How, Cs, [any | Ls]) :- \+ (member(C, Cs), has(C, X)), !, further(Xs, How, Cs, Ls).
further([X | Xs], How, Cs, [L | Ls]) :- levels(Xs, How, Cs, Tests, Ls), chosen(How, X, Tests, L).

chosen(facts, X, Tests, by(X, A, D, Rest)) :- select(D-at(A), Tests, Rest), has(A, X), functor(A, Name, N), \+ ruled(Name, N), !.
chosen(_, X, Tests, lv(X, Tests)).

has(T, X) :- term_variables(T, Vs), member(V, Vs), V == X, !.

% ---- Clauses, one for each way to a head, in the variables Xs so far: c(Head, Checks, Any, Body). Checks: the head's variables, whose terms must be listed. Any: any, if some variable is
% neither in the head nor chosen for the body. Body: none, a goal, or choose(0, Tests, Levels) over the variables that are not in the head.

clauses([all, D], Env, Xs, How, Cs, Es) :- !, append(Xs, [X], Ys), clauses(D, [X | Env], Ys, How, Cs, Es).
clauses([and, D, E], Env, Xs, How, Cs, Es) :- !, clauses(D, Env, Xs, How, Cs, Ds), clauses(E, Env, Xs, How, Ds, Es).
clauses([imp, G, [atom, Name | Ts]], Env, Xs, How, [c(Head, Checks, no, Body) | Cs], Cs) :- !,
    applied(Name, Ts, Env, Head), in_head(Xs, Head, Checks, Rest),
    ( Rest == [] -> goal(G, Env, How, Body) ; plan(How, Rest, G, Env, Tests, Levels), Body = choose(0, Tests, Levels) ).
clauses([atom, Name | Ts], Env, Xs, _, [c(Head, Checks, Any, none) | Cs], Cs) :-
    applied(Name, Ts, Env, Head), in_head(Xs, Head, Checks, Rest),
    ( Rest == [] -> Any = no ; Any = any ).

in_head([], _, [], []).
in_head([X | Xs], Head, Checks, Rest) :- ( has(Head, X) -> Checks = [X | Cs], in_head(Xs, Head, Cs, Rest) ; Rest = [X | Rs], in_head(Xs, Head, Checks, Rs) ).

% ---- The book: the clauses, the candidates without repeats, and which predicates are more than facts: ruled.

book(Rules, Terms, Goal, How, Top) :-
    retractall(cl(_, _, _, _)), retractall(fact(_, _, _)), retractall(rule(_, _, _, _)), retractall(cand(_, _)), retractall(ruled(_, _)),
    phrase(expression([rules | Ds]), Rules), phrase(expression([terms | Ts]), Terms), phrase(expression(G), Goal),
    terms(Ts, [], Cands), forall(( member(T, Cands), \+ cand(T, _) ), ( highest(T, 0, M), assertz(cand(T, M)) )),
    forall(member(D, Ds), ruling(D)), supposing(G),
    goal(G, [], How, Top),
    forall(( member(D, Ds), clauses(D, [], [], How, Cs, []), member(C, Cs) ), lay(C)).

lay(c(Head, Checks, Any, Body)) :-
    assertz(cl(Head, Checks, Any, Body)),
    ( Body == none -> assertz(fact(Head, Checks, Any)) ; assertz(rule(Head, Checks, Any, Body)) ).

highest(T, M, N) :- integer(T), !, N is max(T, M).
highest(T, M, N) :- T =.. [_ | Args], foldl(highest, Args, M, N).

ruling([atom | _]) :- !.
ruling([and, D, E]) :- !, ruling(D), ruling(E).
ruling(D) :- supposed_head(D).

supposed_head([atom, Name | Ts]) :- length(Ts, N), ( ruled(Name, N) -> true ; assertz(ruled(Name, N)) ).
supposed_head([all, D]) :- supposed_head(D).
supposed_head([and, D, E]) :- supposed_head(D), supposed_head(E).
supposed_head([imp, G, A]) :- supposed_head(A), supposing(G).

supposing([top]).
supposing([atom | _]).
supposing([and, F, G]) :- supposing(F), supposing(G).
supposing([or, F, G]) :- supposing(F), supposing(G).
supposing([all, G]) :- supposing(G).
supposing([some, G]) :- supposing(G).
supposing([imp, D, G]) :- supposed_head(D), supposing(G).

% ---- What all have: the head's terms are listed, there is a candidate, a supposed clause is matched. A supposed clause may be used more than once, so it is copied, unless it has no variable.

listed([], _).
listed([X | Xs], P) :- cand(X, M), M =< P, !, listed(Xs, P).

there_is(no, _).
there_is(any, P) :- cand(_, M), M =< P, !.

matched(c(Head, [], no, none), A, [], no, none) :- !, Head == A.
matched(C, A, Checks, Any, Body) :- arg(1, C, Head), \+ Head \= A, copy_term(C, c(A, Checks, Any, Body)).

% ---- head, early: prove(Goal, Height, Parameters, Supposed). Nothing is left to try when it succeeds.

prove(top, H, _, _) :- H > 0.
prove(at(A), H, P, Hand) :- H > 0, use(A, H, P, Hand).
prove(and(F, G), H, P, Hand) :- H > 1, I is H - 1, prove(F, I, P, Hand), prove(G, I, P, Hand).
prove(or(F, G), H, P, Hand) :- H > 1, I is H - 1, ( prove(F, I, P, Hand) -> true ; prove(G, I, P, Hand) ).
prove(all(X, G), H, P, Hand) :- H > 1, I is H - 1, X is P + 1, prove(G, I, X, Hand).
prove(imp(Cs, G), H, P, Hand) :- H > 1, I is H - 1, append(Hand, Cs, More), prove(G, I, P, More).
prove(choose(K, Tests, Levels), H, P, Hand) :- H > K, I is H - K, tests(Tests, I, P, Hand), choose(Levels, I, P, Hand), !.

tests([], _, _, _).
tests([D-G | Ts], H, P, Hand) :- I is H - D, prove(G, I, P, Hand), tests(Ts, H, P, Hand).

choose([], _, _, _).
choose([L | Ls], H, P, Hand) :- level(L, H, P, Hand), choose(Ls, H, P, Hand).

level(any, _, P, _) :- there_is(any, P).
level(lv(X, Tests), H, P, Hand) :- cand(X, M), M =< P, tests(Tests, H, P, Hand).

use(A, H, P, Hand) :- cl(A, Checks, Any, Body), listed(Checks, P), there_is(Any, P), body(Body, H, P, Hand), !.
use(A, H, P, Hand) :- member(C, Hand), matched(C, A, Checks, Any, Body), listed(Checks, P), there_is(Any, P), body(Body, H, P, Hand), !.

body(none, _, _, _) :- !.
body(G, H, P, Hand) :- I is H - 1, prove(G, I, P, Hand).

% ---- table, facts: the same, with a table T of what failed and what was proved: under an atom, the number of the list of clauses supposed, and the parameters, 64 times the greatest height
% at which it failed and the least at which it was proved, 0 if none. Facts come before clauses with a body, and before the table. S numbers the lists of clauses supposed.

prove(top, H, _, _, _) :- H > 0.
prove(at(A), H, P, Hand, T) :- H > 0, use(A, H, P, Hand, T).
prove(and(F, G), H, P, Hand, T) :- H > 1, I is H - 1, prove(F, I, P, Hand, T), prove(G, I, P, Hand, T).
prove(or(F, G), H, P, Hand, T) :- H > 1, I is H - 1, ( prove(F, I, P, Hand, T) -> true ; prove(G, I, P, Hand, T) ).
prove(all(X, G), H, P, Hand, T) :- H > 1, I is H - 1, X is P + 1, prove(G, I, X, Hand, T).
prove(imp(Cs, G), H, P, Hand, T) :- H > 1, I is H - 1, more(Hand, Cs, T, More), prove(G, I, P, More, T).
prove(choose(K, Tests, Levels), H, P, Hand, T) :- H > K, I is H - K, tests(Tests, I, P, Hand, T), choose(Levels, I, P, Hand, T), !.

tests([], _, _, _, _).
tests([D-G | Ts], H, P, Hand, T) :- I is H - D, prove(G, I, P, Hand, T), tests(Ts, H, P, Hand, T).

choose([], _, _, _, _).
choose([L | Ls], H, P, Hand, T) :- level(L, H, P, Hand, T), choose(Ls, H, P, Hand, T).

level(any, _, P, _, _) :- there_is(any, P).
level(lv(X, Tests), H, P, Hand, T) :- cand(X, M), M =< P, tests(Tests, H, P, Hand, T).
level(by(X, A, D, Tests), H, P, Hand, T) :- H > D, fact(A, _, _), cand(X, M), M =< P, tests(Tests, H, P, Hand, T).

more(hand(N, Cs), Ds, T, hand(M, Es)) :- append(Cs, Ds, Es), numbered(T, s(N, Ds), M).

numbered(T, Key, M) :- trie_lookup(T, Key, M), !.
numbered(T, Key, M) :- ( trie_lookup(T, last, L) -> true ; L = 0 ), M is L + 1, trie_update(T, last, M), trie_insert(T, Key, M).

use(A, _, P, _, _) :- fact(A, Checks, Any), listed(Checks, P), there_is(Any, P), !.
use(A, H, P, hand(_, [C | Cs]), _) :- H > 0, member(D, [C | Cs]), matched(D, A, Checks, Any, none), listed(Checks, P), there_is(Any, P), !.
use(A, H, P, Hand, T) :-
    H > 1, Hand = hand(N, Cs), has_rule(A, Cs), !,
    Key = k(A, N, P),
    ( trie_lookup(T, Key, V)
    -> Failed is V >> 6, Proved is V /\ 63,
       ( Proved > 0, H >= Proved -> true
       ; H > Failed, by_rule(A, H, P, Hand, T) -> W is Failed << 6 \/ H, trie_update(T, Key, W)
       ; H > Failed, W is H << 6 \/ Proved, trie_update(T, Key, W), fail
       )
    ;  by_rule(A, H, P, Hand, T) -> trie_update(T, Key, H)
    ;  W is H << 6, trie_update(T, Key, W), fail
    ).

has_rule(A, _) :- rule(A, _, _, _), !.
has_rule(A, Cs) :- member(c(Head, _, _, Body), Cs), Body \== none, \+ Head \= A, !.

by_rule(A, H, P, Hand, T) :- I is H - 1, rule(A, Checks, _, Body), listed(Checks, P), prove(Body, I, P, Hand, T), !.
by_rule(A, H, P, hand(N, [C | Cs]), T) :- I is H - 1, member(D, [C | Cs]), matched(D, A, Checks, _, Body), Body \== none, listed(Checks, P), prove(Body, I, P, hand(N, [C | Cs]), T), !.

% ---- The measure.

search(How, Top, H) :- ( How == head ; How == early ), !, \+ \+ prove(Top, H, 0, []).
search(_, Top, H) :- trie_new(T), ( \+ \+ prove(Top, H, 0, hand(0, []), T) -> trie_destroy(T) ; trie_destroy(T), fail ).

times(0, _, _, _) :- !.
times(N, How, Top, H) :- ( search(How, Top, H) -> true ; true ), M is N - 1, times(M, How, Top, H).

took(N, How, Top, H, Each) :- get_time(A), times(N, How, Top, H), get_time(B), Each is (B - A) / N.

% The least of batches of some 5 ms, a quarter of a second in all, or one search if it takes longer. The first search lays the indexes; it counts only if it is the only one.
measured(How, Top, H, Answer, Nano, Inferences) :-
    get_time(A), ( search(How, Top, H) -> Answer = yes ; Answer = no ), get_time(B), First is B - A,
    statistics(inferences, I), ( First > 5 -> true ; times(1, How, Top, H) ), statistics(inferences, J), Inferences is J - I,
    ( First > 0.25 -> Least = First
    ; N is 1 + truncate(0.005 / max(First, 0.000001)), least(A, N, How, Top, H, First, Least)
    ),
    Nano is round(Least * 1.0e9).

least(A, N, How, Top, H, L, Least) :- took(N, How, Top, H, E), M is min(L, E), get_time(B), ( B - A > 0.25 -> Least = M ; least(A, N, How, Top, H, M, Least) ).

file(Folder, Name, Codes) :- atomic_list_concat([Folder, /, Name], Path), read_file_to_codes(Path, Codes, [encoding(octet)]).

main :- current_prolog_flag(argv, Argv), asked(Argv).

asked([How, cases]) :- set_stream(user_input, encoding(octet)), read_stream_to_codes(user_input, Codes), cases(Codes, How).
asked([How, Folder, Height]) :-
    file(Folder, 'rules.sx', Rules), file(Folder, 'terms.sx', Terms), file(Folder, 'goal.sx', Goal), atom_number(Height, H),
    book(Rules, Terms, Goal, How, Top),
    forall(( member(Name/N, [cl/4, fact/3, rule/4, cand/2]), functor(Head, Name, N), once(clause(Head, _)) ), compile_predicates([Name/N])),
    garbage_collect, measured(How, Top, H, Answer, Nano, Inferences),
    format("~w ~w ~w~n", [Answer, Nano, Inferences]).

cases([], _) :- !.
cases(Codes, How) :-
    phrase(case(Rules, Goal, Terms, Height), Codes, Rest), number_codes(H, Height),
    ( catch(book(Rules, Terms, Goal, How, Top), _, fail) -> ( search(How, Top, H) -> writeln(yes) ; writeln(no) ) ; writeln(-) ),
    cases(Rest, How).

case(Rules, Goal, Terms, Height) --> octets(Rules), octets(Goal), octets(Terms), octets(Height), octets(_).
