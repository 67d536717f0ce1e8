%% Connects to the agent, again and again until that succeeds, and gives each line that it writes to the process that it is for. It reads no more
%% before that has taken it, so nothing piles up here.
-module(grain_reader).
-export([start_link/0, init/1]).

-define(PAUSE, 200). % milliseconds between two tries to connect

-spec start_link() -> {ok, pid()}.
start_link() -> proc_lib:start_link(?MODULE, init, [self()]).

-spec init(pid()) -> no_return().
init(Parent) ->
    register(?MODULE, self()),
    proc_lib:init_ack(Parent, {ok, self()}),
    connect(none).

connect(Told) ->
    case grain_fence:connect() of
        {ok, Socket, Rest} ->
            [gen_server:cast(Name, {connected, Socket}) || Name <- [grain_names, grain_finder, grain_members]],
            took(Socket, Rest);
        {error, Why} ->
            Why =:= Told orelse logger:notice("grain_registry: no agent yet: ~p", [Why]),
            timer:sleep(?PAUSE),
            connect(Why)
    end.

took(Socket, Bytes) ->
    [Rest | Lines] = lists:reverse(binary:split(Bytes, <<"\n">>, [global])),
    Whose = lists:foldl(fun(Line, Map) -> for(Line, Map) end, #{}, Lines),
    maps:foreach(fun(Name, Its) -> gen_server:call(Name, {lines, Its}, infinity) end, Whose),
    read(Socket, Rest).

read(Socket, Rest) ->
    case gen_tcp:recv(Socket, 0) of
        {ok, Bytes} -> took(Socket, <<Rest/binary, Bytes/binary>>);
        {error, Why} ->
            grain_fence:fence({agent_gone, Why}),
            timer:sleep(infinity) % until all ends
    end.

%% Lines come in here from the last to the first.
for(<<"event valid ", Until/binary>>, Map) -> grain_fence:extend(binary_to_integer(Until)), Map;
for(<<"event lost ", Why/binary>>, Map) -> grain_fence:fence({lost, Why}), Map;
for(<<"event firm ", _/binary>> = Line, Map) -> add(grain_names, Line, Map);
for(<<"event ", _/binary>> = Line, Map) -> add(grain_members, Line, Map);
for(<<"n", _/binary>> = Line, Map) -> add(grain_names, Line, Map);
for(<<"f", _/binary>> = Line, Map) -> add(grain_finder, Line, Map);
for(<<"m", _/binary>> = Line, Map) -> add(grain_members, Line, Map).

add(Name, Line, Map) -> maps:update_with(Name, fun(Lines) -> [words(Line) | Lines] end, [words(Line)], Map).

words(Line) -> binary:split(Line, <<" ">>, [global]).
