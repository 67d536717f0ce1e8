%% Measures of a registry over three nodes: grain_registry, or global. clients/erlang/measure runs it.
-module(grain_bench).
-export([main/1, registrations/4, register_for/4, look_ups/4, spread/3, stay/0]).
-import(grain_cluster, [on/4, on/2]).

-define(SECONDS, 4). % of each rate of registrations

main(What) ->
    Servers = grain_cluster:servers(),
    try
        [begin run(Registry, Servers#{doors => none}), partition(Registry, Servers) end || Registry <- What],
        lists:member(grain_registry, What) andalso waits(Servers#{doors => none})
    after grain_cluster:stop_servers(Servers) end.

nodes_of(Registry, Servers, Ttl) ->
    Cluster = lists:concat([Registry, erlang:unique_integer([positive])]),
    Ns = [start(list_to_atom(lists:concat([b, K])), Servers, Cluster, Ttl) || K <- [1, 2, 3]],
    connect(Registry, Ns),
    Ns.

start(Name, Servers, Cluster, Ttl) -> grain_cluster:node(Name, Servers, Cluster, [lists:concat(["--ttl=", Ttl, "s"])]).

connect(global, Ns) ->
    [on(A, net_kernel, connect_node, [grain_cluster:name(B)]) || A <- Ns, B <- Ns],
    [on(A, global, sync, []) || A <- Ns];
connect(grain_registry, Ns) ->
    [grain_cluster:join(N) || N <- Ns],
    grain_cluster:settled(Ns, length(Ns)).

run(Registry, Servers) ->
    Ns = [A, B, _] = nodes_of(Registry, Servers, 15),
    try
        One = on(A, ?MODULE, register_for, [Registry, one, 1, ?SECONDS]),
        say(Registry, "registrations, 1 caller", per(One, ?SECONDS)),
        Many = on(A, ?MODULE, register_for, [Registry, many, 32, ?SECONDS]),
        say(Registry, "registrations, 32 callers at one node", per(Many, ?SECONDS)),
        Names = [{{one, 0}, K} || K <- lists:seq(1, min(One, 1000))],
        Count = length(Names),
        say(Registry, "look-ups of own names, 1 caller", per(Count * 100, on(A, ?MODULE, look_ups, [Registry, Names, 1, 100]))),
        timer:sleep(500),
        say(Registry, "first look-ups of another node's names, 1 caller", per(Count, on(B, ?MODULE, look_ups, [Registry, Names, 1, 1]))),
        say(Registry, "further look-ups of these, 1 caller", per(Count * 100, on(B, ?MODULE, look_ups, [Registry, Names, 1, 100]))),
        [[say(Registry, lists:concat(["the same, asked of the directory, ", Callers, " callers"]), per(Count, on(B, ?MODULE, look_ups, [grain_finder, Names, Callers, 1])))
          || Callers <- [1, 32]] || Registry =:= grain_registry],
        None = [{none, K} || K <- lists:seq(1, 1000)],
        [say(Registry, lists:concat(["look-ups of what isn't there, ", Callers, " callers"]), per(1000, on(B, ?MODULE, look_ups, [Registry, None, Callers, 1])))
         || Callers <- [1, 32]],
        Each = case Registry of global -> 100; grain_registry -> 3334 end, % that takes global long enough
        Own = self(),
        {Us, _} = timer:tc(fun() ->
            [spawn_link(fun() -> on(N, ?MODULE, registrations, [Registry, {spread, grain_cluster:name(N)}, 32, Each]), Own ! {done, N} end) || N <- Ns],
            [receive {done, N} -> ok end || N <- Ns]
        end),
        say(Registry, io_lib:format("~b registrations over 3 nodes, 32 callers at each", [Each div 32 * 32 * 3]), io_lib:format("~.2f s", [Us / 1.0e6])),
        say(Registry, io_lib:format("~b processes end at once; all their names are free", [Many]), io_lib:format("~b ms", [on(A, ?MODULE, spread, [Registry, many, Many])])),
        say(Registry, "a node joins, and finds all these names", io_lib:format("~b ms", [joins(Registry, Ns, Servers, Each div 32 * 32)]))
    after [grain_cluster:stop(N) || N <- Ns] end.

say(Registry, What, How) -> io:format("~-15s ~s: ~s~n", [Registry, What, How]).

per(Count, Seconds) -> [integer_to_list(round(Count / Seconds)), "/s"].

%% How many names so many callers register in so many seconds.
register_for(Registry, Tag, Callers, Seconds) ->
    Own = self(),
    Until = erlang:monotonic_time(millisecond) + Seconds * 1000,
    [spawn_link(fun() -> Own ! {did, register_until(Registry, {Tag, C}, 0, Until, [])} end) || C <- lists:seq(0, Callers - 1)],
    All = lists:append([receive {did, Names} -> Names end || _ <- lists:seq(1, Callers)]),
    persistent_term:put({?MODULE, Tag}, All),
    length(All).

register_until(Registry, Tag, Count, Until, Before) ->
    case erlang:monotonic_time(millisecond) < Until of
        true ->
            Pid = spawn(?MODULE, stay, []),
            yes = Registry:register_name({Tag, Count + 1}, Pid),
            register_until(Registry, Tag, Count + 1, Until, [{{Tag, Count + 1}, Pid} | Before]);
        false -> Before
    end.

%% Seconds for so many names by so many callers.
registrations(Registry, Tag, Callers, Count) ->
    Per = Count div Callers,
    Pids = list_to_tuple([spawn(?MODULE, stay, []) || _ <- lists:seq(1, Count)]),
    seconds(Callers, fun(C) -> [yes = Registry:register_name({Tag, C * Per + K}, element(C * Per + K, Pids)) || K <- lists:seq(1, Per)] end).

look_ups(Registry, Names, Callers, Times) ->
    Per = length(Names) div Callers,
    Where = case Registry of
                grain_finder -> fun(Name) -> grain_finder:where(grain_term:key(Name)) end;
                _ -> fun Registry:whereis_name/1
            end,
    seconds(Callers, fun(C) -> [[Where(Name) || Name <- lists:sublist(Names, C * Per + 1, Per)] || _ <- lists:seq(1, Times)] end).

seconds(Callers, Work) ->
    Own = self(),
    {Us, _} = timer:tc(fun() ->
        [spawn_link(fun() -> Work(C), Own ! {done, C} end) || C <- lists:seq(0, Callers - 1)],
        [receive {done, C} -> ok end || C <- lists:seq(0, Callers - 1)]
    end),
    Us / 1.0e6.

stay() -> receive stop -> ok end.

spread(Registry, Tag, Count) ->
    Names = persistent_term:get({?MODULE, Tag}),
    [exit(Pid, kill) || {_, Pid} <- Names],
    Some = [Name || {Name, _} <- lists:sublist(Names, 1, 100) ++ lists:nthtail(max(0, Count - 100), Names)],
    grain_cluster:until(fun() -> lists:all(fun(Name) -> Registry:whereis_name(Name) =:= undefined end, Some) end, 60000).

joins(Registry, Ns = [A | _], Servers, Each) ->
    #{cluster := Cluster} = A,
    D = start(b4, Servers, Cluster, 15),
    Names = [{{spread, grain_cluster:name(N)}, K} || N <- Ns, K <- lists:seq(1, Each, 32)],
    Began = erlang:monotonic_time(millisecond),
    connect(Registry, [D | Ns]),
    grain_cluster:until(fun() -> on(D, fun() -> lists:all(fun(Name) -> is_pid(Registry:whereis_name(Name)) end, Names) end) end, 60000),
    Took = erlang:monotonic_time(millisecond) - Began,
    grain_cluster:stop(D),
    Took.

%% Both sides of a cut register one name, and the cut heals. The third node is cut off from all, its agent too.
partition(Registry, Servers) ->
    Ns = [A, B, C] = nodes_of(Registry, Servers, 5),
    try
        Register = fun(N) -> try on(N, fun() -> Pid = spawn(?MODULE, stay, []), {Registry:register_name(ann, Pid), Pid} end) catch _:Why -> {exits(Why), none} end end,
        grain_cluster:shut(C),
        [grain_cluster:cut(N, C) || N <- [A, B]],
        {Ra, Pa} = Register(A),
        Own = self(),
        spawn_link(fun() -> Own ! {c, Register(C)} end),
        {Rc, Pc} = receive {c, R} -> R after 8000 -> {'waits', none} end,
        io:format("~-15s both sides of a cut register one name: one is told ~p, the other ~p~n", [Registry, Ra, Rc]),
        grain_cluster:open(C),
        [grain_cluster:heal(N, C) || N <- [A, B]],
        {Rc2, Pc2} = case Rc of 'waits' -> receive {c, R2} -> R2 after 60000 -> {still_waits, none} end; _ -> {Rc, Pc} end,
        timer:sleep(6000),
        Alive = [on(N, erlang, is_process_alive, [P]) || {N, P} <- [{A, Pa}, {C, Pc2}], is_pid(P)],
        io:format("~-15s healed: the other is told ~p; of the processes that were told yes, alive are ~p; A finds ~p, C ~p~n",
                  [Registry, Rc2, Alive, on(A, Registry, whereis_name, [ann]), on(C, Registry, whereis_name, [ann])])
    after [grain_cluster:stop(N) || N <- Ns] end.

exits({exception, exit, Why, _}) -> Why;
exits(Why) -> Why.

%% How long registering waits while a silo joins, and while a machine dies, with 10,000 names in all.
waits(Servers) ->
    Ns = [A, _, C] = nodes_of(grain_registry, Servers, 5),
    [on(N, ?MODULE, registrations, [grain_registry, {waits, grain_cluster:name(N)}, 32, 3334]) || N <- Ns],
    #{cluster := Cluster} = A,
    {_, Calm} = probe(A, fun() -> timer:sleep(3000), none end),
    {D, Joining} = probe(A, fun() -> N = grain_cluster:join(start(b5, Servers, Cluster, 5)), timer:sleep(2000), N end),
    {_, Dying} = probe(A, fun() -> grain_cluster:kill(C), timer:sleep(10000), none end),
    [io:format("grain_registry  the longest that registering waited ~s: ~b ms of ~b times~n", [When, Longest, Times])
     || {When, {Times, Longest}} <- [{"in calm", Calm}, {"while a silo joined", Joining}, {"while a machine died (TTL 5 s)", Dying}]],
    [grain_cluster:stop(N) || N <- [D | Ns]].

%% What something comes to, and {registrations, milliseconds of the longest} by one caller meanwhile.
probe(A, During) ->
    Prober = on(A, fun() -> spawn(fun() -> probing(0, 0) end) end),
    Done = During(),
    {Done, on(A, fun() -> Prober ! {stop, self()}, receive {stopped, R} -> R after 60000 -> error(timeout) end end)}.

probing(Times, Longest) ->
    receive {stop, From} -> From ! {stopped, {Times, Longest}}
    after 2 ->
        {Us, yes} = timer:tc(fun() -> grain_registry:register_name({probe, self(), Times}, spawn(?MODULE, stay, [])) end),
        probing(Times + 1, max(Longest, Us div 1000))
    end.
