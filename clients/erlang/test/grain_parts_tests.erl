%% The parts that need no agent.
-module(grain_parts_tests).
-include_lib("eunit/include/eunit.hrl").

%% Distinct terms are distinct grains, which the directory takes: up to 128 characters of visible ASCII behind the slash.
grains_test() ->
    Names = [ann, "ann", <<"ann">>, {user, "ann"}, 1, 1.0, 0.0, -0.0, [], #{a => 1}, #{a => 1.0}, lists:seq(1, 1000), lists:seq(1, 1001), self(), make_ref(),
             {"ä", 'ö'}, binary:copy(<<"x">>, 90), binary:copy(<<"x">>, 91), binary:copy(<<"x">>, 92)],
    Grains = [grain_term:grain(grain_term:key(Name)) || Name <- Names],
    ?assertEqual(length(Names), length(lists:usort(Grains))),
    [?assertMatch({match, _}, re:run(Grain, "^(term|hash)/[!-~]{1,128}$")) || Grain <- Grains],
    [?assertEqual(Name, binary_to_term(grain_term:key(Name))) || Name <- Names],
    Pairs = [{K, K} || K <- lists:seq(1, 100)],
    ?assertEqual(grain_term:key(maps:from_list(Pairs)), grain_term:key(maps:from_list(lists:reverse(Pairs)))).

%% No more than a window of questions is under way, and no more than so many wait; what is urgent waits all the same.
questions_test() ->
    {Own, Other} = pair(),
    Q0 = grain_questions:new($x, 2, 3),
    {ok, Q1} = grain_questions:ask("a 1", one, Q0),
    {ok, Q2} = grain_questions:ask("b", two, grain_questions:sent(Q1)), % there is no connection
    {ok, Q3} = grain_questions:ask("c", three, Q2),
    ?assertEqual(busy, grain_questions:ask("d", four, Q3)),
    Q4 = grain_questions:sent(grain_questions:connected(Own, grain_questions:urge("e", five, Q3))),
    ?assertEqual({ok, <<"x0 a 1\nx1 b\n">>}, gen_tcp:recv(Other, 12, 1000)),
    {two, Q5} = grain_questions:answered(<<"x1">>, Q4),
    Q6 = grain_questions:sent(Q5),
    ?assertEqual({ok, <<"x2 c\n">>}, gen_tcp:recv(Other, 5, 1000)),
    {three, Q7} = grain_questions:answered(<<"x2">>, Q6),
    {one, Q8} = grain_questions:answered(<<"x0">>, Q7),
    ?assertError({badmatch, error}, grain_questions:answered(<<"x9">>, Q8)), % what nobody asked: all begins anew
    {five, _} = grain_questions:answered(<<"x3">>, grain_questions:sent(Q8)),
    ?assertEqual({ok, <<"x3 e\n">>}, gen_tcp:recv(Other, 5, 1000)).

%% Who asks for a name may end before the answer. Then the name is given up, behind its `activate`, also where that hasn't gone out yet; and whatever
%% the agent answers, who wants the name next has it then.
given_up_test_() ->
    {timeout, 20, fun() ->
        process_flag(trap_exit, true),
        application:load(grain_registry),
        Servers = [begin {ok, Pid} = Module:start_link(), Pid end || Module <- [grain_fence, grain_hints, grain_members, grain_names]],
        {Own, Agent} = pair(),
        Connect = fun() -> gen_server:cast(grain_names, {connected, Own}) end,
        Next = lists:foldl(fun(Steps, N) -> given_up(Agent, Connect, Steps, N) end, 0, [
            [{says, 0, "refused given .."}, {says, 1, "ended GRAIN absent"}],
            [{says, 0, "firm S!1 GRAIN token 7"}, {says, 1, "ended GRAIN removed"}],
            [{says, 0, "taken T!1 GRAIN"}, {says, 1, "refused 802 .."}],
            [{says, 0, "taken S!1 GRAIN"}, {says, 1, "refused 803 .."}], % another node has it, at the same agent
            [{says, 0, "refused 806 .."}, {says, 1, "refused 802 .."}],
            [{says, 1, "refused busy .."}, {hears, 2, "deactivate"}, {says, 0, "refused given .."}, {says, 2, "ended GRAIN absent"}],
            [{says, 1, "refused busy .."}, {says, 0, "firm S!1 GRAIN token 7"}, {hears, 2, "deactivate"}, {says, 2, "ended GRAIN removed"}],
            [{event, "firm S!1 GRAIN token 7"}, {says, 0, "refused yours .."}, {says, 1, "ended GRAIN removed"}]]), % it moved here meanwhile
        comes_while_it_is_asked_for(Agent, Next),
        [begin unlink(Pid), gen_server:stop(Pid) end || Pid <- lists:reverse(Servers)]
    end}.

given_up(Agent, Connect, Steps, N) ->
    Key = grain_term:key({name, N}),
    Step = fun({says, K, Text}) -> says(N + K, Text, Key); ({event, Text}) -> event(Text, Key); ({hears, K, Verb}) -> hears(Agent, N + K, Verb, Key) end,
    [First, Second, Third] = [spawn(fun() -> timer:sleep(infinity) end) || _ <- [1, 2, 3]],
    One = gen_server:send_request(grain_names, {register, Key, First}),
    exit(First, kill),
    ?assertEqual({reply, no}, gen_server:wait_response(One, 2000)),
    Connect(),
    [Step({hears, K, Verb}) || {K, Verb} <- [{0, "activate"}, {1, "deactivate"}]],
    gen_server:send_request(grain_names, {register, Key, Third}),
    Other = gen_server:send_request(grain_names, {register, Key, Second}),
    gen_server:cast(grain_names, {cancel, Key, Third}), % whoever waited for that does so no more
    [Step(S) || S <- Steps],
    ?assertEqual([], ets:lookup(grain_names, Key)),
    Next = 2 + length([K || {hears, K, _} <- Steps]),
    Step({hears, Next, "activate"}),
    Step({says, Next, "firm S!2 GRAIN token 9"}),
    ?assertEqual({reply, yes}, gen_server:wait_response(Other, 2000)),
    ?assertEqual([{Key, Second, 9}], ets:lookup(grain_names, Key)),
    exit(Second, kill),
    Step({hears, Next + 1, "deactivate"}),
    ?assertEqual([], ets:lookup(grain_names, Key)),
    Step({says, Next + 1, "ended GRAIN removed"}),
    N + Next + 2.

%% A name that is handed over late, so that it is asked for, and then comes: it is the process', though the question is refused.
comes_while_it_is_asked_for(Agent, N) ->
    Key = grain_term:key({name, late}),
    Grain = grain_term:grain(Key),
    Pid = spawn(fun() -> timer:sleep(infinity) end),
    Tag = make_ref(),
    grain_names ! {expect, Key, Pid, self(), {self(), Tag}},
    hears(Agent, N, "expect", Key),
    says(N, "ok", Key),
    receive {ready, Grain, _} -> ok end,
    grain_names ! {handed, Grain, self()},
    hears(Agent, N + 1, "unexpect", Key),
    hears(Agent, N + 2, "activate", Key),
    event("firm S!3 GRAIN token 5", Key),
    says(N + 1, "ok", Key),
    says(N + 2, "refused yours ..", Key),
    receive {Tag, Answer} -> ?assertEqual(yes, Answer) end,
    ?assertEqual([{Key, Pid, 5}], ets:lookup(grain_names, Key)),
    exit(Pid, kill),
    hears(Agent, N + 3, "deactivate", Key),
    says(N + 3, "ended GRAIN removed", Key).

event(Text, Key) -> line("event " ++ Text, Key).

says(Tag, Text, Key) -> line(lists:concat(["n", Tag, " ", Text]), Key).

line(Text, Key) ->
    Line = lists:append(string:replace(Text, "GRAIN", binary_to_list(grain_term:grain(Key)))),
    ok = gen_server:call(grain_names, {lines, [binary:split(list_to_binary(Line), <<" ">>, [global])]}).

hears(Agent, Tag, Verb, Key) ->
    Line = list_to_binary(lists:concat(["n", Tag, " ", Verb, " ", binary_to_list(grain_term:grain(Key)), "\n"])),
    ?assertEqual({ok, Line}, gen_tcp:recv(Agent, byte_size(Line), 2000)).

pair() ->
    {ok, Listener} = gen_tcp:listen(0, [binary, {active, false}, {ip, {127, 0, 0, 1}}]),
    {ok, Port} = inet:port(Listener),
    {ok, Own} = gen_tcp:connect({127, 0, 0, 1}, Port, [binary, {active, false}]),
    {ok, Other} = gen_tcp:accept(Listener),
    {Own, Other}.

clock_test() ->
    Before = grain_clock:printed(),
    timer:sleep(30),
    After = grain_clock:latest(),
    ?assert(After - Before >= 30000000 andalso After - Before < 5000000000),
    ?assert(grain_clock:is_of(Before + 15000000, Before, After)),
    ?assertNot(grain_clock:is_of(Before - 1, Before, After)),
    ?assertNot(grain_clock:is_of(After + 3600000000000, Before, After)).

%% An agent that has another clock isn't worked with, nor is one that says something else.
agents_clock_test_() ->
    {timeout, 20, fun() ->
        Path = lists:concat(["/tmp/grain-clock-", os:getpid()]),
        [begin
             file:delete(Path),
             {ok, Listener} = gen_tcp:listen(0, [local, {ifaddr, {local, Path}}, binary, {active, false}]),
             ok = application:set_env(grain_registry, socket, Path),
             {ok, Fence} = grain_fence:start_link(),
             spawn_link(fun() ->
                                {ok, Socket} = gen_tcp:accept(Listener),
                                ok = gen_tcp:send(Socket, ["event valid 1\n", Says(grain_clock:printed()), "event settled 7\n"]),
                                gen_tcp:recv(Socket, 0)
                        end),
             ?assertMatch(Expected, element(1, grain_fence:connect())),
             unlink(Fence),
             gen_server:stop(Fence),
             gen_tcp:close(Listener)
         end || {Expected, Says} <- [{ok, fun(Now) -> ["c clock ", integer_to_list(Now + 5000000), "\n"] end},
                                     {error, fun(Now) -> ["c clock ", integer_to_list(Now - 100000000000), "\n"] end},
                                     {error, fun(Now) -> ["c clock ", integer_to_list(Now + 100000000000), "\n"] end},
                                     {error, fun(_) -> "c refused what words\n" end}]],
        file:delete(Path)
    end}.

%% The fence ends what is registered at its deadline, and then hangs up.
deadline_test_() ->
    {timeout, 20, fun() ->
        process_flag(trap_exit, true),
        {ok, Fence} = grain_fence:start_link(),
        Pid = spawn(fun() -> timer:sleep(infinity) end),
        true = ets:insert(grain_names, {<<"x">>, Pid, 1}),
        Monitor = monitor(process, Pid),
        ?assertNot(grain_fence:is_valid()),
        Start = grain_clock:latest(),
        grain_fence:extend(Start + 300000000),
        grain_fence:extend(Start + 200000000), % an older one that comes late
        timer:sleep(30),
        ?assert(grain_fence:is_valid()),
        receive {'DOWN', Monitor, process, _, Why} -> ?assertEqual(killed, Why) end,
        Took = grain_clock:printed() - Start,
        ?assert(Took >= 250000000 andalso Took < 400000000),
        receive {'EXIT', Fence, {shutdown, {fenced, deadline}}} -> ok end
    end}.
