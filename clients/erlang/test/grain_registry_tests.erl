%% Three nodes of one machine, each with its agent: what is registered where, while nodes come, are cut off, frozen and killed.
-module(grain_registry_tests).
-include_lib("eunit/include/eunit.hrl").
-import(grain_cluster, [on/2, on/4, until/2, name/1]).
-export([stamp_loop/2, give_up/0]).

all_test_() ->
    {setup, fun grain_cluster:servers/0, fun grain_cluster:stop_servers/1, fun(Servers) ->
        [{atom_to_list(Test), {timeout, 180, fun() -> with_nodes(Test, Servers) end}} || Test <- tests()] end}.

tests() ->
    case string:lexemes(os:getenv("ONLY", ""), " ") of
        [] -> [names, race, exits, unregister, once, gives_up, hints, full, two_at_one, killed, vm_killed, joins, hand_over, leaves, agent_leaves, cut_off, cut_from_nodes,
               one_link, silo_killed, etcd_away, frozen, actors];
        Names -> [list_to_atom(Name) || Name <- Names]
    end.

with_nodes(Test, Servers) ->
    Cluster = lists:concat([Test, erlang:unique_integer([positive])]),
    Nodes = [grain_cluster:node(list_to_atom(lists:concat([Test, K])), Servers, Cluster) || K <- [1, 2, 3]],
    try
        [grain_cluster:join(N) || N <- Nodes],
        grain_cluster:settled(Nodes, 3),
        test(Test, Nodes)
    after [grain_cluster:stop(N) || N <- Nodes] end.

%% Names are any terms, also long ones.
test(names, [A, B, _]) ->
    Names = [ann, "ann", <<"ann">>, {user, "ann"}, {user, 1}, {user, 1.0}, 0.0, -0.0, [], #{a => 1}, lists:seq(1, 1000), {"ä", 'ö'}],
    [begin
         ?assertMatch({ok, _}, start(A, Name)),
         ?assertEqual({name(A), 1}, call(B, Name, add))
     end || Name <- Names],
    ?assertEqual(length(Names), length(on(A, grain_registry, registered_names, []))),
    ?assertExit({badarg, _}, on(A, grain_registry, send, [nobody, hello])),
    ?assertError(badarg, on(B, grain_registry, token, [ann])),
    ?assertNot(on(A, grain_registry, may, [ann])),
    ?assert(on(A, fun() -> yes = grain_registry:register_name(own, self()), grain_registry:may(own) end));

%% Of processes at all nodes that register one name at once, exactly one wins.
test(race, Nodes) ->
    [begin
         Own = self(),
         [spawn_link(fun() -> Own ! {started, start(N, {race, K})} end) || N <- Nodes],
         Answers = [receive {started, A} -> A end || _ <- Nodes],
         ?assertMatch([_], [P || {ok, P} <- Answers], Answers),
         [Pid] = [P || {ok, P} <- Answers],
         ?assertEqual([{error, {already_started, Pid}}], lists:usort(Answers -- [{ok, Pid}])),
         ?assertEqual([Pid], lists:usort([where(N, {race, K}) || N <- Nodes]))
     end || K <- lists:seq(1, 100)];

test(exits, [A, B, C]) ->
    {ok, _} = start(A, x),
    ok = call(B, x, stop),
    until(fun() -> where(C, x) =:= undefined end, 2000),
    ?assertMatch({ok, _}, start(C, x)),
    ?assertEqual({name(C), 1}, call(B, x, add)),
    ?assertMatch({error, _}, on(A, gen_server, start, [{via, grain_registry, y}, no_such_module, [], []])),
    until(fun() -> where(B, y) =:= undefined end, 1000);

%% The name is free as soon as it is answered, and the process lives on.
test(unregister, [A, B, C]) ->
    {ok, Pid} = start(A, x),
    {_, 1} = call(B, x, add),
    ok = on(C, grain_registry, unregister_name, [x]),
    {ok, New} = start(B, x),
    until(fun() -> [New] =:= lists:usort([where(N, x) || N <- [A, B, C]]) end, 1000),
    ?assert(on(A, erlang, is_process_alive, [Pid])),
    ok = on(A, grain_registry, unregister_name, [nobody]);

%% A process gives its name up or hands it over, and all begins anew at its node before that is done. Whoever has the name next keeps it.
test(once, [A, B, C]) ->
    #{agent := Agent} = A,
    New = on(C, fun() -> {ok, P} = gen_server:start(grain_counter, x, []), P end),
    [begin
         {ok, _} = start(A, {x, What}),
         os:cmd("kill -STOP " ++ integer_to_list(Agent)), % so that nothing is answered
         on(A, erlang, spawn, [grain_registry, What, [{x, What} | More]]),
         timer:sleep(200),
         on(A, grain_fence, fence, [trial]),
         until(fun() -> start(B, {x, What}), is_pid(where(B, {x, What})) end, 60000),
         Holder = where(B, {x, What}),
         os:cmd("kill -CONT " ++ integer_to_list(Agent)),
         grain_cluster:join(A),
         timer:sleep(1000),
         ?assertEqual(Holder, on(C, grain_finder, where, [grain_term:key({x, What})]))
     end || {What, More} <- [{unregister_name, []}, {hand_over, [New]}]];

%% Processes ask for names and end before they are answered: others that ask at the same node meanwhile have them then.
test(gives_up, [A = #{agent := Agent}, B, C]) ->
    Ask = fun(K) -> on(A, fun() -> spawn(fun() -> yes = grain_registry:register_name({x, K}, self()), timer:sleep(infinity) end) end) end,
    Kill = fun(Pids) -> on(A, fun() -> [exit(Pid, kill) || Pid <- Pids] end), timer:sleep(100) end,
    Names = lists:seq(1, 50),
    os:cmd("kill -STOP " ++ integer_to_list(Agent)), % so that nothing is answered
    Kill([Ask(K) || K <- Names]),
    Second = [Ask(K) || K <- Names],
    timer:sleep(100),
    os:cmd("kill -CONT " ++ integer_to_list(Agent)),
    until(fun() -> [where(B, {x, K}) || K <- Names] =:= Second end, 10000),
    Kill([Ask({y, K}) || K <- Names]), % as soon as that may be
    Kill(Second),
    [until(fun() -> element(1, start(C, {x, K})) =:= ok end, 5000) || K <- Names ++ [{y, K} || K <- Names]];

%% Each node hears which names the others have, and which they haven't any more; a node that comes hears all.
test(hints, Nodes = [A, B, C]) ->
    [{ok, _} = start(A, {x, K}) || K <- lists:seq(1, 2500)],
    Known = fun(N) -> on(N, ets, info, [grain_hints, size]) end,
    until(fun() -> [Known(N) || N <- Nodes] =:= [0, 2500, 2500] end, 3000),
    ok = call(B, {x, 7}, stop),
    until(fun() -> Known(B) =:= 2499 end, 2000),
    grain_cluster:stop_vm(C),
    D = grain_cluster:join(grain_cluster:vm(hints4, C)),
    until(fun() -> Known(D) =:= 2499 end, 5000),
    ?assertEqual(where(A, {x, 1}), where(D, {x, 1})),
    grain_cluster:cut(A, D),
    until(fun() -> Known(D) =:= 0 end, 5000),
    grain_cluster:heal(A, D),
    until(fun() -> Known(D) =:= 2499 end, 5000),
    grain_cluster:stop_vm(D);

%% Where no hints are kept all is asked of the directory, and found.
test(full, [A, B, C]) ->
    ok = on(C, application, stop, [grain_registry]),
    ok = on(C, application, set_env, [grain_registry, hints, 0, [{persistent, true}]]),
    grain_cluster:join(C),
    {ok, Pid} = start(A, x),
    ?assertEqual([Pid, Pid], [where(N, x) || N <- [B, C]]),
    ?assertEqual(0, on(C, ets, info, [grain_hints, size])),
    ?assertEqual(undefined, where(C, nobody));

%% Several nodes at one agent.
test(two_at_one, [A, B, C]) ->
    D = grain_cluster:join(grain_cluster:vm(two_at_one4, A)),
    grain_cluster:settled([A, B, C, D], 3),
    {ok, Pa} = start(A, a),
    {ok, Pd} = start(D, d),
    ?assertEqual({error, {already_started, Pa}}, start(D, a)),
    [?assertEqual([Pa, Pd], [where(N, a), where(N, d)]) || N <- [A, B, C, D]],
    [?assertEqual([Pa, Pd], [on(N, grain_finder, where, [grain_term:key(Name)]) || Name <- [a, d]]) || N <- [A, B, C, D]],
    New = on(D, fun() -> {ok, P} = gen_server:start(grain_counter, a, []), P end),
    ?assertEqual(yes, on(A, grain_registry, hand_over, [a, New])),
    until(fun() -> [New] =:= lists:usort([where(N, a) || N <- [A, B, C, D]]) end, 1000),
    grain_cluster:stop_vm(D),
    until(fun() -> where(B, a) =:= undefined andalso where(C, d) =:= undefined end, 3000),
    ?assertMatch({ok, _}, start(C, d));

%% A machine that dies, with node, agent and silo: its names become free, those of others stay.
test(killed, [A, B, C]) ->
    [{ok, _} = start(N, {N0, K}) || {N, N0} <- [{A, a}, {B, b}, {C, c}], K <- lists:seq(1, 100)],
    Token = call(B, {c, 1}, token),
    grain_cluster:kill(C),
    Start = erlang:monotonic_time(millisecond),
    until(fun() -> (catch element(1, start(A, {c, 1}))) =:= ok end, 30000),
    ?debugFmt("a killed machine's name was registered anew after ~b ms", [erlang:monotonic_time(millisecond) - Start]),
    ?assert(call(B, {c, 1}, token) > Token),
    [?assertMatch({ok, _}, start(B, {c, K})) || K <- lists:seq(2, 100)],
    [?assertEqual(name(A), node(where(B, {a, K}))) || K <- lists:seq(1, 100)],
    [?assertEqual(name(B), node(where(A, {c, K}))) || K <- lists:seq(2, 100)];

%% The node alone dies: its agent hears that at once.
test(vm_killed, [A, B, C]) ->
    [{ok, _} = start(C, {c, K}) || K <- lists:seq(1, 100)],
    grain_cluster:kill_vm(C),
    Ms = until(fun() -> (catch element(1, start(A, {c, 1}))) =:= ok end, 30000),
    ?debugFmt("a killed node's name was registered anew after ~b ms", [Ms]),
    [?assertMatch({ok, _}, start(B, {c, K})) || K <- lists:seq(2, 100)];

%% A silo that joins takes over ranges; all is found there, and nothing is registered twice.
test(joins, Nodes = [A, B, C]) ->
    [{ok, _} = start(N, {K, N0}) || {N, N0} <- [{A, a}, {B, b}, {C, c}], K <- lists:seq(1, 200)],
    #{servers := Servers, cluster := Cluster} = A,
    D = grain_cluster:join(grain_cluster:node(joins4, Servers, Cluster)),
    grain_cluster:settled([D | Nodes], 4),
    [begin
         ?assertEqual(name(N), node(on(D, grain_finder, where, [grain_term:key({K, N0})]))),
         ?assertMatch({error, {already_started, _}}, start(D, {K, N0}))
     end || {N, N0} <- [{A, a}, {B, b}, {C, c}], K <- lists:seq(1, 200)],
    {Version, Silos} = on(D, grain_registry, members, []),
    ?assertEqual({4, 4}, {Version, length(Silos)}),
    grain_cluster:stop(D);

test(hand_over, [A, B, C]) ->
    {ok, Old} = start(A, x),
    {_, 1} = call(C, x, add),
    Counter = fun() -> {ok, P} = gen_server:start(grain_counter, x, []), P end,
    New = on(B, Counter),
    ?assertEqual(yes, on(A, grain_registry, hand_over, [x, New])),
    until(fun() -> [New] =:= lists:usort([where(N, x) || N <- [A, B, C]]) end, 1000),
    ?assert(on(A, erlang, is_process_alive, [Old])),
    ?assertEqual(no, on(A, grain_registry, hand_over, [y, New])),
    Beside = on(B, Counter), % at the same node
    ?assertEqual(yes, on(C, grain_registry, hand_over, [x, Beside])),
    until(fun() -> [Beside] =:= lists:usort([where(N, x) || N <- [A, B, C]]) end, 1000),
    Dead = on(C, fun() -> spawn(fun() -> ok end) end), % to a process that has ended the name goes nowhere
    ?assertEqual(no, on(C, grain_registry, hand_over, [x, Dead])),
    ?assertEqual(Beside, where(A, x)),
    {ok, _} = start(A, z),
    [begin % there and back
         P = on(N, Counter),
         ?assertEqual(yes, on(A, grain_registry, hand_over, [z, P])),
         ?assertEqual({name(N), 1}, call(N, z, add))
     end || _ <- lists:seq(1, 10), N <- [B, C, A]];

%% A node that leaves takes no names, and may hand over what it has; then it ends.
test(leaves, [A, B, C]) ->
    [{ok, _} = start(C, {x, K}) || K <- lists:seq(1, 50)],
    ok = on(C, grain_registry, leave, []),
    ?assertExit({refused, <<"leaving">>}, on(C, grain_registry, register_name, [y, on(C, erlang, whereis, [init])])),
    until(fun() -> {_, Silos} = on(A, grain_registry, members, []), [] =:= [x || {_, _, Nodes} <- Silos, lists:member(name(C), Nodes)] end, 3000),
    [begin
         New = on(B, fun() -> {ok, P} = gen_server:start(grain_counter, K, []), P end),
         ?assertEqual(yes, on(C, grain_registry, hand_over, [{x, K}, New])),
         ?assertEqual(New, where(A, {x, K}))
     end || K <- lists:seq(1, 50)],
    ok = on(C, application, stop, [grain_registry]),
    ?assertMatch({ok, _}, start(A, y));

%% The agent leaves: its node is told to, by the setting `leaving`; when nothing is held any more the silo is dead, and all is found.
test(agent_leaves, [A, B, C]) ->
    ok = on(C, application, set_env, [grain_registry, leaving, {?MODULE, give_up, []}]),
    [{ok, _} = start(N, {N0, K}) || {N, N0} <- [{A, a}, {B, b}, {C, c}], K <- lists:seq(1, 50)],
    grain_cluster:leave_agent(C),
    Ms = until(fun() -> length(element(2, on(A, grain_registry, members, []))) =:= 2 end, 15000),
    ?debugFmt("who left was dead after ~b ms", [Ms]),
    ?assertEqual([], on(C, grain_registry, registered_names, [])),
    [?assertEqual(name(A), node(on(B, grain_finder, where, [grain_term:key({a, K})]))) || K <- lists:seq(1, 50)],
    ?assertMatch({ok, _}, start(A, {c, 1}));

%% The node is cut off from all: its processes end before others take their names. Then it comes back.
test(cut_off, [A, B, C]) ->
    stamping(C, x, "c"),
    timer:sleep(300),
    Start = erlang:monotonic_time(millisecond),
    grain_cluster:shut(C),
    [grain_cluster:cut(N, C) || N <- [A, B]],
    until(fun() -> catch stamping(A, x, "a") end, 30000),
    Ms = erlang:monotonic_time(millisecond) - Start,
    timer:sleep(500),
    [First | _] = stamps(x, "a"),
    Last = lists:last(stamps(x, "c")),
    ?debugFmt("taken over ~b ms after the cut; the old one had ended ~b ms before", [Ms, (First - Last) div 1000000]),
    ?assert(First > Last),
    grain_cluster:open(C),
    [grain_cluster:heal(N, C) || N <- [A, B]],
    comes_back(A, C);

%% Cut off from the nodes alone: its agent is a member as before, so its names stay. They are found again when it is reached.
test(cut_from_nodes, [A, B, C]) ->
    {ok, Pid} = start(C, x),
    [grain_cluster:cut(N, C) || N <- [A, B]],
    until(fun() -> where(A, x) =:= undefined end, 5000),
    ?assertEqual(no, on(A, grain_registry, register_name, [x, on(A, erlang, whereis, [init])])),
    ?assertMatch({ok, _}, start(C, y)),
    ?assertEqual(no, on(B, grain_registry, register_name, [y, on(B, erlang, whereis, [init])])),
    [grain_cluster:heal(N, C) || N <- [A, B]],
    until(fun() -> where(A, x) =:= Pid end, 5000),
    ?assertEqual({name(C), 1}, call(B, y, add));

%% Two nodes that don't reach one another, while both reach the third. (OTP's own `global` would cut one of them off, so it is told not to.)
test(one_link, [A, B, C]) ->
    grain_cluster:cut(A, B),
    until(fun() -> not lists:member(name(B), on(A, erlang, nodes, [])) end, 1000),
    Started = [{K, start(A, {x, K})} || K <- lists:seq(1, 30)],
    ?assertEqual(30, length([ok || {_, {ok, _}} <- Started])),
    [?assertEqual(name(A), node(where(C, {x, K}))) || K <- lists:seq(1, 30)],
    [?assertEqual({error, {already_started, undefined}}, start(B, {x, K})) || K <- lists:seq(1, 3)];

%% The silo's process is killed: all that is registered there ends, and the node comes back.
test(silo_killed, [A, B, C]) ->
    {ok, Pid} = start(C, x),
    grain_cluster:signal_silo(C, "KILL"),
    until(fun() -> not on(C, erlang, is_process_alive, [Pid]) end, 1000),
    Ms = until(fun() -> (catch element(1, start(A, x))) =:= ok orelse where(B, x) =/= undefined end, 20000),
    ?debugFmt("after the death of a silo's process its name was registered anew in ~b ms", [Ms]),
    comes_back(A, C);

%% Without etcd for longer than the deadline, all names end, everywhere; with it, all come back.
test(etcd_away, Nodes = [A, B, _]) ->
    {ok, Pid} = start(A, x),
    [grain_cluster:shut(N) || N <- Nodes],
    timer:sleep(1000),
    ?assert(on(A, erlang, is_process_alive, [Pid])),
    until(fun() -> not on(A, erlang, is_process_alive, [Pid]) end, 8000),
    [grain_cluster:open(N) || N <- Nodes],
    Ms = until(fun() -> (catch element(1, start(B, x))) =:= ok end, 60000),
    ?debugFmt("~b ms after etcd came back a name was registered", [Ms]);

%% The whole machine stands still for longer than the deadline, and goes on: what is measured is for how long two work. Tokens tell them apart.
test(frozen, [A, _, C]) ->
    stamping(C, x, "c"),
    Token = on(C, grain_registry, token, [x]),
    timer:sleep(300),
    grain_cluster:signal(C, "STOP"),
    until(fun() -> catch stamping(A, x, "a") end, 30000),
    ?assert(on(A, grain_registry, token, [x]) > Token),
    timer:sleep(300),
    grain_cluster:signal(C, "CONT"),
    timer:sleep(1000),
    [First | _] = stamps(x, "a"),
    Late = [S || S <- stamps(x, "c"), S > First],
    ?debugFmt("a frozen process worked ~b times after it was replaced, for ~.3f ms",
              [length(Late), case Late of [] -> 0.0; _ -> (lists:last(Late) - hd(Late)) / 1000000 end]),
    ?assert(length(Late) < 100);

test(actors, Nodes = [A, B, C]) ->
    Own = self(),
    [spawn_link(fun() -> [on(N, grain, call, [{grain_counter, K}, add]) || K <- lists:seq(1, 50)], Own ! done end) || N <- Nodes, _ <- [1, 2]],
    [receive done -> ok end || _ <- Nodes, _ <- [1, 2]],
    [?assertMatch({_, 7}, on(A, grain, call, [{grain_counter, K}, add])) || K <- lists:seq(1, 50)],
    ?assert(length(lists:usort([node(where(B, {grain_counter, K})) || K <- lists:seq(1, 50)])) > 1),
    ok = on(B, grain, call, [{grain_counter, 1}, stop]),
    until(fun() -> where(A, {grain_counter, 1}) =:= undefined end, 2000),
    ?assertMatch({_, 1}, on(A, grain, call, [{grain_counter, 1}, add])),
    grain_cluster:kill(C),
    Ms = until(fun() -> lists:all(fun(K) -> case catch on(A, grain, call, [{grain_counter, K}, add]) of {_, N} when is_integer(N) -> true; _ -> false end end,
                                  lists:seq(1, 50)) end, 30000),
    ?debugFmt("all actors answered ~b ms after a machine was killed", [Ms]).

comes_back(A, C) ->
    Ms = until(fun() -> (catch length([S || {S, active, [_ | _]} <- element(2, on(A, grain_registry, members, []))])) =:= 3 end, 60000),
    ?debugFmt("back after ~b ms", [Ms]),
    ?assertMatch({ok, _}, start(C, back)),
    until(fun() -> case where(A, back) of undefined -> false; Pid -> node(Pid) =:= name(C) end end, 10000).

give_up() -> [grain_registry:unregister_name(Name) || Name <- grain_registry:registered_names()].

%% A process that writes the time, all the time, while it has a name.
stamping(N, Name, File) ->
    yes = on(N, fun() ->
                        ok = file:write_file(stamp_file(Name, File), <<>>),
                        Pid = spawn(?MODULE, stamp_loop, [Name, File]),
                        case grain_registry:register_name(Name, Pid) of yes -> Pid ! go, yes; no -> exit(Pid, kill), no end
                end),
    true.

stamp_loop(Name, File) ->
    receive go -> ok end,
    {ok, F} = file:open(stamp_file(Name, File), [append, raw, binary]),
    stamp_on(F).

stamp_on(F) -> file:write(F, <<(os:system_time(nanosecond)):64>>), timer:sleep(1), stamp_on(F).

stamps(Name, File) -> {ok, Bytes} = file:read_file(stamp_file(Name, File)), [S || <<S:64>> <= Bytes].

stamp_file(Name, File) -> lists:concat(["/tmp/grain-stamps-", os:getenv("GRAIN_RUN"), "-", Name, File]).

start(N, Name) -> on(N, grain_counter, start, [Name]).
where(N, Name) -> on(N, grain_registry, whereis_name, [Name]).
call(N, Name, Request) -> on(N, gen_server, call, [{via, grain_registry, Name}, Request]).
