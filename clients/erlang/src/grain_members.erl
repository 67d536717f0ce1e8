%% Who is a member: the silos, and the nodes at each. A node tells its agent its name, and hears the others' names from it.
-module(grain_members).
-behaviour(gen_server).
-export([start_link/0, members/0, silo/0, nodes_at/1, leave/0, is_leaving/0]).
-export([init/1, handle_call/3, handle_cast/2, handle_info/2]).
-export_type([members/0]).

-define(RECONNECT, 5000). % milliseconds between tries to connect to nodes that aren't connected

-type members() :: {Version :: non_neg_integer(), [{Silo :: binary(), active | leaving, [node()]}]}.
-record(state, {questions = grain_questions:new($m, 16, 64) :: grain_questions:questions(), asks = false :: boolean()}).

-spec start_link() -> gen_server:start_ret().
start_link() -> gen_server:start_link({local, ?MODULE}, ?MODULE, [], []).

%% As far as is known here.
-spec members() -> members().
members() -> known(members, {0, []}).

%% This node's silo.
-spec silo() -> binary() | none.
silo() -> known(silo, none).

-spec nodes_at(binary()) -> [node()].
nodes_at(Silo) -> known(Silo, []).

%% This node takes no names any more, and the others don't hear of it any more.
-spec leave() -> ok.
leave() ->
    ok = application:set_env(grain_registry, left, true), % also if all begins anew here
    gen_server:call(?MODULE, leave, infinity).

-spec is_leaving() -> boolean().
is_leaving() -> known(leaving, false).

known(What, Default) ->
    try ets:lookup(?MODULE, What) of
        [{_, Value}] -> Value;
        [] -> Default
    catch error:badarg -> Default
    end.

-spec init([]) -> {ok, #state{}}.
init([]) ->
    ?MODULE = ets:new(?MODULE, [named_table, protected, {read_concurrency, true}]),
    ets:insert(?MODULE, {leaving, application:get_env(grain_registry, left, false)}),
    erlang:send_after(?RECONNECT, self(), reconnect),
    {ok, #state{}}.

handle_call({lines, Lines}, _From, S) -> {reply, ok, sent(lists:foldl(fun line/2, S, Lines))};
handle_call(leave, _From, S) -> {reply, ok, sent(leaves(S))}.

handle_cast({connected, Socket}, S = #state{questions = Q}) ->
    Name = case is_leaving() of true -> []; false -> [$\s, uri_string:quote(atom_to_binary(node()), "@")] end,
    S1 = S#state{questions = grain_questions:connected(Socket, Q)},
    {noreply, sent(ask_members(ask(<<"status">>, ask([<<"named">>, Name], S1))))}.

handle_info(reconnect, S) ->
    connect(),
    erlang:send_after(?RECONNECT, self(), reconnect),
    {noreply, S};
handle_info(_, S) -> {noreply, S}.

ask(Words, S = #state{questions = Q}) -> S#state{questions = grain_questions:urge(Words, hd(binary:split(iolist_to_binary(Words), <<" ">>)), Q)}.

sent(S = #state{questions = Q}) -> S#state{questions = grain_questions:sent(Q)}.

%% One question about the members is enough, unless something changes behind it.
ask_members(S = #state{asks = true}) -> S;
ask_members(S) -> ask(<<"members">>, S#state{asks = true}).

line([<<"event">>, <<"leaving">>], S) -> leaves(S);
line([<<"event">> | _], S) -> ask_members(S);
line([Tag | Answer], S = #state{questions = Q}) ->
    {Purpose, Q1} = grain_questions:answered(Tag, Q),
    said(Purpose, Answer, S#state{questions = Q1}).

said(<<"status">>, [<<"status">>, Silo | _], S) -> ets:insert(?MODULE, {silo, Silo}), S;
said(<<"members">>, [<<"members">>, Version | Words], S) ->
    take(binary_to_integer(Version), silos(Words)),
    connect(),
    S#state{asks = false};
said(<<"members">>, _, S) -> S#state{asks = false};
said(_, [<<"refused">> | Why], S) -> logger:warning("grain_registry: the agent refuses: ~s", [lists:join($\s, Why)]), S;
said(_, _, S) -> S.

silos([Silo, Status, Names | Rest]) -> [{Silo, status(Status), names(Names)} | silos(Rest)];
silos([]) -> [].

status(<<"active">>) -> active;
status(<<"leaving">>) -> leaving.

%% Other applications of an agent may have names, too.
names(<<"-">>) -> [];
names(Names) ->
    [binary_to_atom(uri_string:unquote(Name)) || Name <- binary:split(Names, <<",">>, [global]), binary:match(Name, <<"@">>) =/= nomatch].

%% Names that a node announced, and that is a member no more, are nobody's.
take(Version, Silos) ->
    {_, Before} = members(),
    ets:insert(?MODULE, [{members, {Version, Silos}} | [{Silo, Nodes} || {Silo, _, Nodes} <- Silos]]),
    [ets:delete(?MODULE, Silo) || {Silo, _, _} <- Before, not lists:keymember(Silo, 1, Silos)],
    grain_hints:forget(nodes_of(Before) -- nodes_of(Silos)).

nodes_of(Silos) -> lists:usort([Node || {_, _, Nodes} <- Silos, Node <- Nodes]).

connect() ->
    {ok, Connects} = application:get_env(grain_registry, connect),
    {_, Silos} = members(),
    [spawn(net_kernel, connect_node, [Node]) || Connects, Node <- nodes_of(Silos) -- [node() | nodes()]].

leaves(S) ->
    case is_leaving() of
        true -> S;
        false ->
            ets:insert(?MODULE, {leaving, true}),
            case application:get_env(grain_registry, leaving, none) of
                {Module, Function, Arguments} -> spawn(Module, Function, Arguments);
                none -> none
            end,
            ask(<<"named">>, S)
    end.
