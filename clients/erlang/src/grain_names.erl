%% The names of this node, and what is under way for each:
%%   asking      the agent was asked for it
%%   expecting   another node hands it over
%%   firm        it is registered: it stands in the table grain_names, and others have heard of it
%%   closing     it was given up, also before it was granted; who wants it meanwhile waits in `next`
%% A name leaves the table before its end is asked for, and comes into it behind its grant: in between, it is nobody's.
%% Questions go to the agent in the order in which they are asked. It answers `activate` before the `deactivate` behind that: so once this is answered
%% nothing is under way for a name. While it has no answer no grant that is on its way begins anything. The agent grants a name once: one that comes
%% here while it is asked for is granted by that event.
-module(grain_names).
-behaviour(gen_server).
-export([start_link/0, register/2, unregister/2, hand_over/3]).
-export([init/1, handle_call/3, handle_cast/2, handle_info/2]).
-export_type([registered/0, handed_over/0]).

-define(WINDOW, 2048).  % questions under way
-define(MOST, 50000).   % questions that wait
-define(WAIT, 30000).   % milliseconds for an answer
-define(PAUSE, 20).     % before something is tried again
-define(ARRIVAL, 100).  % for a name that was handed over and may still be on its way

-type registered() :: yes | no | {refused, Code :: binary()}.
-type handed_over() :: registered() | gone. % it isn't that process' any more
-type grain() :: binary().
-record(held, {phase :: asking | expecting | firm | closing, key :: binary(), pid :: none | pid(), monitor :: none | reference(),
               from = none :: none | gen_server:from(),         % who waits for it here
               home = none :: none | {pid(), reference()},      % expecting: the server of the node that it comes from
               to = none :: none | {pid(), gen_server:from(), reference()}, % to whom it is handed over
               ended = [] :: [gen_server:from()],               % who waits for its end
               next = [] :: [{binary(), pid(), gen_server:from()}]}).
-record(state, {questions = grain_questions:new($n, ?WINDOW, ?MOST) :: grain_questions:questions(),
                held = #{} :: #{grain() => #held{}}, monitors = #{} :: #{reference() => grain()}, fence :: reference()}).

-spec start_link() -> gen_server:start_ret().
start_link() -> gen_server:start_link({local, ?MODULE}, ?MODULE, [], []).

%% All three are the node's at which the process is, or was.
-spec register(Key :: binary(), pid()) -> registered().
register(Key, Pid) ->
    try gen_server:call({?MODULE, node(Pid)}, {register, Key, Pid}, ?WAIT)
    catch exit:{timeout, Call} ->
        gen_server:cast({?MODULE, node(Pid)}, {cancel, Key, Pid}),
        exit({timeout, Call})
    end.

-spec unregister(Key :: binary(), pid()) -> ok | gone.
unregister(Key, Pid) -> gen_server:call({?MODULE, node(Pid)}, {unregister, Key, Pid}, ?WAIT).

-spec hand_over(Key :: binary(), pid(), pid()) -> handed_over().
hand_over(Key, Old, Pid) -> gen_server:call({?MODULE, node(Old)}, {hand_over, Key, Old, Pid}, ?WAIT).

-spec init([]) -> {ok, #state{}}.
init([]) -> {ok, #state{fence = monitor(process, grain_fence)}}.

handle_call({lines, Lines}, _From, S) -> {reply, ok, sent(lists:foldl(fun line/2, S, Lines))};
handle_call({register, Key, Pid}, From, S) -> {noreply, sent(register(Key, Pid, From, S))};
handle_call({unregister, Key, Pid}, From, S = #state{held = Held}) ->
    Grain = grain_term:grain(Key),
    case Held of
        #{Grain := H = #held{phase = firm, pid = Pid}} -> {noreply, sent(close(Grain, H#held{ended = [From]}, S))};
        _ -> {reply, gone, S}
    end;
handle_call({hand_over, Key, Old, Pid}, From, S = #state{held = Held}) ->
    Grain = grain_term:grain(Key),
    case Held of
        #{Grain := H = #held{phase = firm, pid = Old, to = none}} -> {noreply, hand_over(Grain, H, Pid, From, S)};
        #{Grain := #held{phase = firm, pid = Old}} -> {reply, no, S}; % it goes somewhere already
        _ -> {reply, gone, S}
    end.

handle_cast({connected, Socket}, S = #state{questions = Q}) -> {noreply, sent(S#state{questions = grain_questions:connected(Socket, Q)})};
handle_cast({cancel, Key, Pid}, S = #state{held = Held}) ->
    Grain = grain_term:grain(Key),
    case Held of
        #{Grain := #held{pid = Pid, monitor = Monitor}} -> {noreply, sent(unwatch(Monitor, down(Monitor, Grain, S)))};
        #{Grain := H = #held{next = Next}} -> {noreply, S#state{held = Held#{Grain := H#held{next = [One || One = {_, Who, _} <- Next, Who =/= Pid]}}}};
        _ -> {noreply, S}
    end.

handle_info({expect, Key, Pid, Home, From}, S) -> {noreply, sent(expect(Key, Pid, Home, From, S))};
handle_info({ready, Grain, Silo}, S) -> {noreply, sent(ready(Grain, Silo, S))};
handle_info({Late, Grain, Home}, S = #state{held = Held}) when Late =:= handed; Late =:= late ->
    case Held of
        #{Grain := H = #held{phase = expecting, home = {Home, _}}} -> {noreply, sent(late(Late, Grain, H, S))};
        _ -> {noreply, S}
    end;
handle_info({again, Grain}, S) -> {noreply, sent(urge(deactivate, Grain, S))};
handle_info({'DOWN', Fence, process, _, _}, S = #state{fence = Fence, held = Held}) ->
    grain_fence:kill([Pid || #held{phase = firm, pid = Pid} <- maps:values(Held)]), % nobody else would
    {stop, {shutdown, no_fence}, S};
handle_info({'DOWN', Monitor, process, _, _}, S = #state{monitors = Monitors}) ->
    case maps:take(Monitor, Monitors) of
        {Grain, Rest} -> {noreply, sent(down(Monitor, Grain, S#state{monitors = Rest}))};
        error -> {noreply, S}
    end;
handle_info(_, S) -> {noreply, S}.

%% Questions, and what comes of them.

sent(S = #state{questions = Q}) -> S#state{questions = grain_questions:sent(Q)}.

urge(Verb, Grain, S) -> urge(Verb, Grain, [], S).
urge(Verb, Grain, More, S = #state{questions = Q}) ->
    S#state{questions = grain_questions:urge([atom_to_binary(Verb), $\s, Grain, More], {Verb, Grain}, Q)}.

line([<<"event">>, <<"firm">>, _, Grain, <<"token">>, Token], S) -> arrived(Grain, binary_to_integer(Token), S);
line([Tag | Answer], S = #state{questions = Q, held = Held}) ->
    {{Verb, Grain}, Q1} = grain_questions:answered(Tag, Q),
    case Held of
        #{Grain := H} -> said(Verb, Answer, Grain, H, S#state{questions = Q1});
        _ -> S#state{questions = Q1}
    end.

said(activate, _, _, #held{phase = Phase}, S) when Phase =/= asking -> S; % it was given up meanwhile, or has come here, and is refused by `yours`
said(activate, [<<"firm">>, _, _, <<"token">>, Token], Grain, H, S) -> firm(Grain, binary_to_integer(Token), H, S);
said(activate, [<<"taken">> | _], Grain, H, S) -> dropped(Grain, no, H, S);
said(activate, [<<"refused">>, Code | _], Grain, H, S) -> dropped(Grain, {refused, Code}, H, S);
said(expect, [<<"ok">>], Grain, #held{phase = expecting, home = {Home, _}}, S) -> tell(Home, {ready, Grain, grain_members:silo()}), S;
said(expect, _, Grain, H = #held{phase = expecting, home = {Home, _}}, S) -> tell(Home, {ready, Grain, none}), dropped(Grain, no, H, S);
said(Verb, [<<"ended">> | _], Grain, H, S) when Verb =:= deactivate; Verb =:= migrate -> ended(Grain, H, S);
said(deactivate, [<<"refused">>, <<"busy">> | _], Grain, _, S) -> erlang:send_after(?PAUSE, self(), {again, Grain}), S;
said(deactivate, [<<"refused">>, Code | _], Grain, H, S) when Code =:= <<"802">>; Code =:= <<"803">>; Code =:= <<"lost">> -> ended(Grain, H, S);
said(deactivate, Answer, Grain, _, _) -> exit({deactivate, Grain, Answer});
said(migrate, [<<"refused">> | _], Grain, _, S) -> urge(deactivate, Grain, S); % whom it goes to asks for it
said(_, _, _, _, S) -> S.

%% Registering.

register(Key, Pid, From, S = #state{held = Held}) ->
    Grain = grain_term:grain(Key),
    case Held of
        #{Grain := H = #held{phase = closing, next = Next}} -> S#state{held = Held#{Grain := H#held{next = Next ++ [{Key, Pid, From}]}}};
        #{Grain := _} -> gen_server:reply(From, no), S;
        _ -> activate(Grain, Key, Pid, From, S)
    end.

activate(Grain, Key, Pid, From, S = #state{questions = Q}) ->
    case not grain_members:is_leaving() andalso grain_questions:ask([<<"activate ">>, Grain], {activate, Grain}, Q) of
        {ok, Q1} -> watch(Grain, #held{phase = asking, key = Key, pid = Pid, monitor = none, from = From}, S#state{questions = Q1});
        busy -> gen_server:reply(From, {refused, <<"busy">>}), S;
        false -> gen_server:reply(From, {refused, <<"leaving">>}), S
    end.

watch(Grain, H = #held{pid = Pid}, S = #state{held = Held, monitors = Monitors}) ->
    Monitor = monitor(process, Pid),
    S#state{held = Held#{Grain => H#held{monitor = Monitor}}, monitors = Monitors#{Monitor => Grain}}.

unwatch(Monitor, S = #state{monitors = Monitors}) ->
    Monitor =:= none orelse demonitor(Monitor, [flush]),
    S#state{monitors = maps:remove(Monitor, Monitors)}.

%% Granted.
firm(Grain, Token, H = #held{key = Key, pid = Pid, from = From}, S = #state{held = Held}) ->
    ets:insert(grain_names, {Key, Pid, Token}),
    grain_hints:add(Key, Pid),
    reply(From, yes),
    S#state{held = Held#{Grain := (homeless(H))#held{phase = firm, from = none}}}.

reply(none, _) -> ok;
reply(From, What) -> gen_server:reply(From, What).

homeless(H = #held{home = none}) -> H;
homeless(H = #held{home = {_, Monitor}}) -> demonitor(Monitor, [flush]), H#held{home = none}.

%% Not granted.
dropped(Grain, Why, H = #held{from = From, monitor = Monitor}, S = #state{held = Held}) ->
    homeless(H),
    reply(From, Why),
    unwatch(Monitor, S#state{held = maps:remove(Grain, Held)}).

%% The end of a process: of the one that has a name, that asks for it, that expects it, or of a server that takes part in handing over.
down(Monitor, Grain, S = #state{held = Held}) ->
    case Held of
        #{Grain := H = #held{phase = firm, monitor = Monitor}} -> close(Grain, H#held{monitor = none}, S);
        #{Grain := H = #held{phase = asking, monitor = Monitor, from = From}} -> reply(From, no), close(Grain, H#held{monitor = none}, S);
        #{Grain := H = #held{phase = expecting, monitor = Monitor, home = {Home, _}}} ->
            tell(Home, {ready, Grain, none}),
            dropped(Grain, no, H#held{monitor = none}, urge(unexpect, Grain, S));
        #{Grain := H = #held{phase = expecting, home = {_, Monitor}}} -> late(handed, Grain, H, S);
        #{Grain := H = #held{to = {_, From, Monitor}}} -> reply(From, no), S#state{held = Held#{Grain := H#held{to = none}}};
        _ -> S
    end.

%% Giving up.

close(Grain, H, S) -> urge(deactivate, Grain, closing(Grain, H, S)).

closing(Grain, H = #held{key = Key, monitor = Monitor}, S = #state{held = Held}) ->
    ets:delete(grain_names, Key),
    grain_hints:remove(Key),
    unwatch(Monitor, S#state{held = Held#{Grain := H#held{phase = closing, pid = none, monitor = none, from = none}}}).

ended(Grain, #held{ended = Ended, next = Next, to = To}, S = #state{held = Held}) ->
    [gen_server:reply(From, ok) || From <- Ended],
    S1 = case To of
             {Pid, _, Monitor} -> to_server(node(Pid), {handed, Grain, self()}), unwatch(Monitor, S);
             none -> S
         end,
    lists:foldl(fun({Key, Pid, From}, S2) -> register(Key, Pid, From, S2) end, S1#state{held = maps:remove(Grain, Held)}, Next).

%% Handing over. The other node's server expects the name, and says so; then it is given up to that silo. Where it doesn't arrive there, or the
%% silo is the same, the other node asks for it like anybody.

hand_over(Grain, H = #held{key = Key, monitor = Old}, Pid, From, S) when node(Pid) =:= node() -> % it stays this node's
    [{_, _, Token}] = ets:lookup(grain_names, Key),
    ets:insert(grain_names, {Key, Pid, Token}),
    grain_hints:add(Key, Pid),
    gen_server:reply(From, yes),
    watch(Grain, H#held{pid = Pid}, unwatch(Old, S));
hand_over(Grain, H = #held{key = Key}, Pid, From, S = #state{held = Held, monitors = Monitors}) ->
    Monitor = monitor(process, {?MODULE, node(Pid)}),
    to_server(node(Pid), {expect, Key, Pid, self(), From}),
    S#state{held = Held#{Grain := H#held{to = {Pid, From, Monitor}}}, monitors = Monitors#{Monitor => Grain}}.

to_server(Node, Message) -> erlang:send({?MODULE, Node}, Message, [noconnect]).

tell(Server, Message) -> erlang:send(Server, Message, [noconnect]).

ready(Grain, Silo, S = #state{held = Held}) ->
    case Held of
        #{Grain := H = #held{phase = firm, to = {_, From, Monitor}}} when Silo =:= none ->
            reply(From, no),
            unwatch(Monitor, S#state{held = Held#{Grain := H#held{to = none}}});
        #{Grain := H = #held{phase = firm, to = {_, _, _}}} ->
            S1 = closing(Grain, H, S),
            case grain_members:silo() of
                Silo -> urge(deactivate, Grain, S1);
                _ -> urge(migrate, Grain, [$\s, Silo], S1)
            end;
        _ -> S
    end.

%% A name is to come here for a process.
expect(Key, Pid, Home, From, S = #state{held = Held, monitors = Monitors}) ->
    Grain = grain_term:grain(Key),
    case Held of
        #{Grain := #held{phase = closing}} -> % it was this node's just now
            erlang:send_after(?PAUSE, self(), {expect, Key, Pid, Home, From}),
            S;
        #{Grain := _} -> tell(Home, {ready, Grain, none}), S;
        _ ->
            case grain_members:is_leaving() of
                true -> tell(Home, {ready, Grain, none}), S;
                false ->
                    Monitor = monitor(process, Home),
                    H = #held{phase = expecting, key = Key, pid = Pid, monitor = none, from = From, home = {Home, Monitor}},
                    urge(expect, Grain, watch(Grain, H, S#state{monitors = Monitors#{Monitor => Grain}}))
            end
    end.

arrived(Grain, Token, S = #state{held = Held}) ->
    case Held of
        #{Grain := H = #held{phase = Phase}} when Phase =:= expecting; Phase =:= asking -> firm(Grain, Token, H, S);
        #{Grain := _} -> S; % it was given up, and the agent reads that yet
        _ -> urge(deactivate, Grain, S#state{held = Held#{Grain => #held{phase = closing, key = <<>>, pid = none, monitor = none}}})
    end.

late(handed, Grain, #held{home = {Home, _}}, S) -> erlang:send_after(?ARRIVAL, self(), {late, Grain, Home}), S;
late(late, Grain, H = #held{key = Key, pid = Pid, from = From, monitor = Monitor}, S = #state{held = Held}) ->
    homeless(H),
    S1 = unwatch(Monitor, S#state{held = maps:remove(Grain, Held)}),
    activate(Grain, Key, Pid, From, urge(unexpect, Grain, S1)).
