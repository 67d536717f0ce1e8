%% Where the names of other nodes are, as these have said: each node tells the others which names come to be its own, and which aren't any more,
%% many at a time. So most look-ups ask nobody. A hint may be a moment old, and is never more than a hint: who registers asks the directory.
%%
%% A node that is connected says `hello`, and hears all names of the other, then what changes. Where the way to it is full it hears nothing for
%% a while, and then all again, so nothing piles up here.
-module(grain_hints).
-behaviour(gen_server).
-export([start_link/0, add/2, remove/1, find/1, note/2, forget/1]).
-export([init/1, handle_call/3, handle_cast/2, handle_info/2]).

-define(PART, 1000). % names of a message
-define(PAUSE, 100). % milliseconds until a node whose way was full is tried again

-type news() :: {binary(), pid()} | binary(). % a name that is registered, or isn't any more
-record(state, {most :: non_neg_integer(), news = [] :: [news()], length = 0 :: non_neg_integer(),
                hearers = #{} :: #{pid() => in_step | behind}, tellers = #{} :: #{pid() => reference()}}).

-spec start_link() -> gen_server:start_ret().
start_link() -> gen_server:start_link({local, ?MODULE}, ?MODULE, [], []).

%% A name is this node's, or isn't any more.
-spec add(binary(), pid()) -> ok.
add(Key, Pid) -> gen_server:cast(?MODULE, {news, {Key, Pid}}).

-spec remove(binary()) -> ok.
remove(Key) -> gen_server:cast(?MODULE, {news, Key}).

-spec find(binary()) -> pid() | none.
find(Key) ->
    try ets:lookup(?MODULE, Key) of
        [{_, Pid}] -> Pid;
        [] -> none
    catch error:badarg -> none
    end.

%% A process has a name at another node, as that has answered.
-spec note(binary(), pid()) -> ok.
note(Key, Pid) -> gen_server:cast(?MODULE, {note, Key, Pid}).

%% These nodes are members no more.
-spec forget([node()]) -> ok.
forget([]) -> ok;
forget(Nodes) -> gen_server:cast(?MODULE, {forget, Nodes}).

-spec init([]) -> {ok, #state{}}.
init([]) ->
    ?MODULE = ets:new(?MODULE, [named_table, protected, {read_concurrency, true}]),
    {ok, Most} = application:get_env(grain_registry, hints),
    ok = net_kernel:monitor_nodes(true),
    S = #state{most = Most},
    [hello(Node, S) || Node <- nodes()],
    {ok, S}.

handle_call(_, _From, S) -> {reply, unknown, S}.

handle_cast({news, News}, S = #state{news = Before, length = Length}) when Length < ?PART - 1 ->
    {noreply, S#state{news = [News | Before], length = Length + 1}, 0}; % told when nothing else waits here
handle_cast({news, News}, S = #state{news = Before}) -> {noreply, told(S#state{news = [News | Before]})};
handle_cast({note, Key, Pid}, S = #state{tellers = Tellers}) -> % without its teller it would stay for ever
    case lists:any(fun(Teller) -> node(Teller) =:= node(Pid) end, maps:keys(Tellers)) of
        true -> take({Key, Pid}, node(Pid), S);
        false -> ok
    end,
    continue(S);
handle_cast({forget, Nodes}, S) ->
    [forget_node(Node) || Node <- Nodes],
    continue(S).

handle_info(timeout, S) -> {noreply, told(S)};
handle_info({nodeup, Node}, S) -> hello(Node, S), continue(S);
handle_info({hello, Pid, Hears}, S = #state{tellers = Tellers}) when is_map_key(Pid, Tellers); node(Pid) =:= node() -> continue(hears(Pid, Hears, S));
handle_info({hello, Pid, Hears}, S = #state{tellers = Tellers}) ->
    S1 = S#state{tellers = Tellers#{Pid => monitor(process, Pid)}},
    hello(node(Pid), S1), % which may have come before this node was ready
    continue(hears(Pid, Hears, S1));
handle_info({hints, Teller, News}, S = #state{tellers = Tellers}) when is_map_key(Teller, Tellers) ->
    [take(New, node(Teller), S) || New <- News],
    continue(S);
handle_info({anew, Teller}, S = #state{tellers = Tellers}) when is_map_key(Teller, Tellers) ->
    forget_node(node(Teller)),
    continue(S);
handle_info({behind, Hearer}, S = #state{hearers = Hearers}) ->
    case Hearers of
        #{Hearer := behind} -> continue(tell_all(Hearer, S));
        _ -> continue(S)
    end;
handle_info({'DOWN', _, process, Pid, _}, S = #state{tellers = Tellers, hearers = Hearers}) ->
    forget_node(node(Pid)),
    continue(S#state{tellers = maps:remove(Pid, Tellers), hearers = maps:remove(Pid, Hearers)});
handle_info(_, S) -> continue(S).

continue(S = #state{length = 0}) -> {noreply, S};
continue(S) -> {noreply, S, 0}.

hello(Node, #state{most = Most}) -> erlang:send({?MODULE, Node}, {hello, self(), Most > 0}, [noconnect, nosuspend]).

%% Telling.

hears(Pid, true, S = #state{hearers = Hearers}) when not is_map_key(Pid, Hearers) -> tell_all(Pid, told(S));
hears(_, _, S) -> S.

told(S = #state{news = []}) -> S;
told(S = #state{news = News, hearers = Hearers}) ->
    Message = {hints, self(), lists:reverse(News)},
    S#state{news = [], length = 0, hearers = maps:map(fun(_, behind) -> behind;
                                                         (Hearer, in_step) -> say(Hearer, Message)
                                                      end, Hearers)}.

%% Whether it is in step behind a message.
say(Hearer, Message) ->
    case erlang:send(Hearer, Message, [noconnect, nosuspend]) of
        ok -> in_step;
        _ ->
            erlang:send_after(?PAUSE, self(), {behind, Hearer}),
            behind
    end.

%% All names of this node. What changes meanwhile comes behind them.
tell_all(Hearer, S = #state{hearers = Hearers}) ->
    ets:safe_fixtable(grain_names, true),
    Step = case say(Hearer, {anew, self()}) of
               in_step -> tell_parts(Hearer, ets:match_object(grain_names, '_', ?PART));
               behind -> behind
           end,
    ets:safe_fixtable(grain_names, false),
    S#state{hearers = Hearers#{Hearer => Step}}.

tell_parts(_, '$end_of_table') -> in_step;
tell_parts(Hearer, {Names, More}) ->
    case say(Hearer, {hints, self(), [{Key, Pid} || {Key, Pid, _} <- Names]}) of
        in_step -> tell_parts(Hearer, ets:match_object(More));
        behind -> behind
    end.

%% Hearing. Where the table is full, the rest is asked for each time. A node ends hints of its own names only.

take({Key, Pid}, _, #state{most = Most}) ->
    (ets:info(?MODULE, size) < Most orelse ets:member(?MODULE, Key)) andalso ets:insert(?MODULE, {Key, Pid});
take(Key, Node, _) ->
    case ets:lookup(?MODULE, Key) of
        [{_, Pid}] when node(Pid) =:= Node -> ets:delete(?MODULE, Key);
        _ -> false
    end.

forget_node(Node) -> ets:select_delete(?MODULE, [{{'_', '$1'}, [{'=:=', {node, '$1'}, Node}], [true]}]).
