%% Looks names up that aren't known here: the directory says at which silo a name is, and a node there says which process that is. Both may be a
%% moment old; where a node has nothing of it, the directory is asked again, for what isn't old.
-module(grain_finder).
-behaviour(gen_server).
-export([start_link/0, where/1]).
-export([init/1, handle_call/3, handle_cast/2, handle_info/2]).

-define(WINDOW, 1024).
-define(MOST, 50000).
-define(WAIT, 30000).
-define(TURNS, 5).
-define(PAUSE, 10).
-define(ANSWER, 1000). % milliseconds for a node's answer: its registry may begin anew just then

-type answer() :: pid() | undefined | {refused, Code :: binary()}.
-record(find, {key :: binary(), froms :: [gen_server:from()], turns = ?TURNS :: non_neg_integer(), asked = [] :: [node()], asking = none :: none | reference()}).
-record(state, {questions = grain_questions:new($f, ?WINDOW, ?MOST) :: grain_questions:questions(), finds = #{} :: #{binary() => #find{}}}).

-spec start_link() -> gen_server:start_ret().
start_link() -> gen_server:start_link({local, ?MODULE}, ?MODULE, [], []).

%% Which process has a name.
-spec where(Key :: binary()) -> answer().
where(Key) -> gen_server:call(?MODULE, {where, Key}, ?WAIT).

-spec init([]) -> {ok, #state{}}.
init([]) ->
    ok = net_kernel:monitor_nodes(true),
    {ok, #state{}}.

handle_call({lines, Lines}, _From, S) -> {reply, ok, sent(lists:foldl(fun line/2, S, Lines))};
handle_call({where, Key}, From, S = #state{finds = Finds}) ->
    Grain = grain_term:grain(Key),
    case Finds of
        #{Grain := F = #find{froms = Froms}} -> {noreply, S#state{finds = Finds#{Grain := F#find{froms = [From | Froms]}}}};
        _ -> {noreply, sent(search(Grain, [], S#state{finds = Finds#{Grain => #find{key = Key, froms = [From]}}}))}
    end.

handle_cast({connected, Socket}, S = #state{questions = Q}) -> {noreply, sent(S#state{questions = grain_questions:connected(Socket, Q)})}.

handle_info({where, Asker, Grain, Key}, S) -> % another node asks
    Answer = case ets:lookup(grain_names, Key) of
                 [{_, Pid, _}] -> Pid;
                 [] -> undefined
             end,
    erlang:send(Asker, {here, Grain, node(), Answer}, [noconnect]),
    {noreply, S};
handle_info({here, Grain, Node, Pid}, S) -> {noreply, sent(answered(Grain, Node, Pid, S))};
handle_info({nodedown, Node}, S = #state{finds = Finds}) -> % it answers no more
    Grains = [Grain || {Grain, #find{asked = Asked}} <- maps:to_list(Finds), lists:member(Node, Asked)],
    {noreply, sent(lists:foldl(fun(Grain, S1) -> answered(Grain, Node, undefined, S1) end, S, Grains))};
handle_info({unanswered, Grain, Asking}, S = #state{finds = Finds}) ->
    case Finds of
        #{Grain := #find{asking = Asking}} -> {noreply, sent(again(Grain, S))};
        _ -> {noreply, S}
    end;
handle_info({again, Grain}, S = #state{finds = Finds}) when is_map_key(Grain, Finds) -> {noreply, sent(search(Grain, <<" fresh">>, S))};
handle_info(_, S) -> {noreply, S}.

sent(S = #state{questions = Q}) -> S#state{questions = grain_questions:sent(Q)}.

search(Grain, Fresh, S = #state{questions = Q}) ->
    case grain_questions:ask([<<"find ">>, Grain, Fresh], Grain, Q) of
        {ok, Q1} -> S#state{questions = Q1};
        busy -> done(Grain, {refused, <<"busy">>}, S)
    end.

line([Tag | Answer], S = #state{questions = Q, finds = Finds}) ->
    {Grain, Q1} = grain_questions:answered(Tag, Q),
    case is_map_key(Grain, Finds) of
        true -> said(Answer, Grain, S#state{questions = Q1});
        false -> S#state{questions = Q1} % a node has answered late, and before
    end.

said([<<"at">>, Activation | _], Grain, S) -> at(hd(binary:split(Activation, <<"!">>)), Grain, S);
said([<<"nowhere">> | _], Grain, S) -> done(Grain, undefined, S);
said([<<"refused">>, Code | _], Grain, S) -> done(Grain, {refused, Code}, S).

%% Asks the nodes at a silo which process it is.
at(Silo, Grain, S = #state{finds = Finds}) ->
    F = #find{key = Key} = maps:get(Grain, Finds),
    Reached = [Node || Node <- grain_members:nodes_at(Silo), Node =:= node() orelse lists:member(Node, nodes())],
    [erlang:send({?MODULE, Node}, {where, self(), Grain, Key}, [noconnect]) || Node <- Reached],
    Asking = make_ref(),
    S1 = S#state{finds = Finds#{Grain := F#find{asked = Reached, asking = Asking}}},
    case Reached of
        [] -> again(Grain, S1);
        _ -> erlang:send_after(?ANSWER, self(), {unanswered, Grain, Asking}), S1
    end.

answered(Grain, Node, Pid, S = #state{finds = Finds}) ->
    case Finds of
        #{Grain := #find{key = Key}} when is_pid(Pid) ->
            Node =:= node() orelse grain_hints:note(Key, Pid),
            done(Grain, Pid, S);
        #{Grain := F = #find{asked = Asked}} ->
            case lists:member(Node, Asked) andalso lists:delete(Node, Asked) of
                [] -> again(Grain, S);
                false -> S;
                Rest -> S#state{finds = Finds#{Grain := F#find{asked = Rest}}}
            end;
        _ -> S
    end.

%% Nobody who is reached has it. It may have moved, or end just now, or its node isn't reached.
again(Grain, S = #state{finds = Finds}) ->
    case maps:get(Grain, Finds) of
        #find{turns = 0} -> done(Grain, undefined, S);
        F = #find{turns = Turns} ->
            erlang:send_after(?PAUSE, self(), {again, Grain}),
            S#state{finds = Finds#{Grain := F#find{turns = Turns - 1, asked = [], asking = none}}}
    end.

done(Grain, Answer, S = #state{finds = Finds}) ->
    {#find{froms = Froms}, Rest} = maps:take(Grain, Finds),
    [gen_server:reply(From, Answer) || From <- Froms],
    S#state{finds = Rest}.
