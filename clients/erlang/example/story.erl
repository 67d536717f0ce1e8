%% Three machines and a store; the counter goes on though its machine dies. example/run plays it.
-module(story).
-export([main/0]).
-import(grain_cluster, [on/4]).

main() ->
    Servers = grain_cluster:servers(),
    {ok, Store} = token_store:start(lists:concat(["/tmp/grain-story-", os:getpid()])),
    Nodes = [grain_cluster:node(Name, Servers, "story") || Name <- [one, two, three]],
    try
        [ok = on(N, application, set_env, [grain_registry, counter_store, node(), [{persistent, true}]]) || N <- Nodes],
        [grain_cluster:join(N) || N <- Nodes],
        grain_cluster:settled(Nodes, 3),
        [add(N) || N <- Nodes],
        {At, _, Count} = add(hd(Nodes)),
        [Victim] = [N || N <- Nodes, grain_cluster:name(N) =:= At],
        io:format("the machine of ~p is killed~n", [At]),
        grain_cluster:kill(Victim),
        Began = erlang:monotonic_time(millisecond),
        [Other | _] = Nodes -- [Victim],
        grain_cluster:until(fun() -> counts(catch on(Other, grain, call, [{counter, "ann"}, add])) end, 60000),
        {_, _, Now} = add(Other),
        io:format("after ~b ms it went on from ~b~n", [erlang:monotonic_time(millisecond) - Began, Count]),
        true = Now >= Count + 2
    after
        [grain_cluster:stop(N) || N <- Nodes],
        gen_server:stop(Store),
        grain_cluster:stop_servers(Servers)
    end.

counts({_, _, Count}) -> is_integer(Count);
counts(_) -> false.

add(N) ->
    {At, Token, Count} = Answer = on(N, grain, call, [{counter, "ann"}, add]),
    io:format("~p: add; it is ~b, counted at ~p with token ~b~n", [grain_cluster:name(N), Count, At, Token]),
    Answer.
