% A player in Prolog over a description that peers.py made: rules as clauses, negation by failure, what is true and done as
% dynamic facts, and a search with windows for the first own move of the greatest value, the least over the joint replies.
%     swipl -O -q -g run -t halt player.pl -- RULES.pl ROLE DEPTH
:- dynamic rank/3, roles/1, is_base/1.

text(Term, Text) :-
    compound(Term), !,
    Term =.. [Functor|Arguments],
    sub_atom(Functor, 2, _, 0, Name),
    maplist(text, Arguments, Texts),
    atomic_list_concat([Name|Texts], ' ', Inside),
    format(atom(Text), '(~w)', [Inside]).
text(Term, Text) :- format(atom(Text), '~w', [Term]).

% The roles, the base propositions, and the place of each input in printed order.
prepare :-
    findall(Role, g_role(Role), Found), list_to_set(Found, Roles), assertz(roles(Roles)),
    findall(P, g_base(P), Base), sort(Base, Once), forall(member(P, Once), assertz(is_base(P))),
    forall(member(Role, Roles), rank_moves(Role)).

rank_moves(Role) :-
    findall(Text-Move, (g_input(Role, Move), text(Move, Text)), Found),
    sort(Found, Moves),
    forall(nth0(Place, Moves, _-Move), assertz(rank(Role, Move, Place))).

start(State) :- findall(P, (g_init(P), is_base(P)), Found), sort(Found, State).

enter(State) :- retractall(g_true(_)), hold(State).

hold([]).
hold([P|State]) :- assertz(g_true(P)), hold(State).

do([], []).
do([Role|Roles], [Move|Joint]) :- assertz(g_does(Role, Move)), do(Roles, Joint).

after(Joint, State) :-
    roles(Roles), retractall(g_does(_, _)), do(Roles, Joint),
    findall(P, (g_next(P), is_base(P)), Found), sort(Found, State).

legal_moves(Role, Moves) :-
    findall(Place-Move, (g_legal(Role, Move), rank(Role, Move, Place)), Found),
    sort(Found, Ranked), pairs_values(Ranked, Moves).

goal_value(Role, Value) :-
    aggregate_all(max(V), (g_goal(Role, V), integer(V), V >= 0, V =< 100), Value), !.
goal_value(_, 0).

joint_move([], []).
joint_move([Moves|Further], [Move|Joint]) :- member(Move, Moves), joint_move(Further, Joint).

own_moves([Role|_], [Moves|_], Role, Moves) :- !.
own_moves([_|Roles], [_|Further], Role, Moves) :- own_moves(Roles, Further, Role, Moves).

with_own([], [], _, _, []).
with_own([Other|Roles], [Moves|Further], Role, Own, [Options|Rest]) :-
    ( Other == Role -> Options = [Own] ; Options = Moves ),
    with_own(Roles, Further, Role, Own, Rest).

% The value of a state for a role within a window, and the first move that attains it, or none.
value(State, Role, Depth, Low, High, Value, Choice) :-
    enter(State),
    ( g_terminal -> goal_value(Role, Value), Choice = none
    ; Depth =:= 0 -> Value = 0, Choice = none
    ; roles(Roles), maplist(legal_moves, Roles, Legal),
      ( memberchk([], Legal) -> Value = 0, Choice = none
      ; own_moves(Roles, Legal, Role, Own), Own = [First|_],
        best(Own, First, State, Role, Depth, Roles-Legal, Low, High, Value, Choice) ) ).

best([], Choice, _, _, _, _, Low, _, Low, Choice).
best([Own|Moves], Before, State, Role, Depth, Roles-Legal, Low, High, Value, Choice) :-
    with_own(Roles, Legal, Role, Own, Options),
    findall(Joint, joint_move(Options, Joint), Replies),
    worst(Replies, State, Role, Depth, Low, High, Worst),
    ( Worst >= High -> Value = Worst, Choice = Own
    ; Worst > Low -> best(Moves, Own, State, Role, Depth, Roles-Legal, Worst, High, Value, Choice)
    ; best(Moves, Before, State, Role, Depth, Roles-Legal, Low, High, Value, Choice) ).

worst([], _, _, _, _, Least, Least).
worst([Joint|Replies], State, Role, Depth, Low, Least, Worst) :-
    enter(State), after(Joint, Next), Left is Depth - 1,
    value(Next, Role, Left, Low, Least, Value, _),
    Lesser is min(Least, Value),
    ( Lesser =< Low -> Worst = Lesser ; worst(Replies, State, Role, Depth, Low, Lesser, Worst) ).

run :-
    current_prolog_flag(argv, [Rules, Role, Words]),
    atom_number(Words, Depth),
    load_files(Rules, [silent(true)]),
    prepare, start(State),
    value(State, Role, Depth, -1, 101, Value, Choice),
    text(Choice, Text),
    format('value ~w~nmove ~w~n', [Value, Text]).
