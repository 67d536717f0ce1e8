%% Virtual actors over the registry, in the way of Orleans: a grain {Module, Key} is called wherever it is, and started where it isn't.
%% Module is a gen_server whose init/1 takes the key. One that has been idle may just stop; the next call starts it again.
-module(grain).
-export([call/2, call/3, cast/2, start/1]).
-export_type([grain/0]).

-type grain() :: {Module :: module(), Key :: term()}.

-spec call(grain(), term()) -> term().
call(Grain, Request) -> call(Grain, Request, 5000).

%% A call is made again only if the process had ended before: so it is carried out once at most.
-spec call(grain(), term(), timeout()) -> term().
call(Grain, Request, Timeout) ->
    Pid = activation(Grain, 100),
    try gen_server:call(Pid, Request, Timeout)
    catch exit:{noproc, _} -> timer:sleep(5), call(Grain, Request, Timeout)
    end.

-spec cast(grain(), term()) -> ok.
cast(Grain, Request) -> gen_server:cast(activation(Grain, 100), Request).

activation(Grain, Turns) ->
    case grain_registry:whereis_name(Grain) of
        undefined when Turns > 0 ->
            case catch erpc:call(placed(Grain), ?MODULE, start, [Grain], 10000) of
                {ok, Pid} -> Pid;
                {error, {already_started, Pid}} when is_pid(Pid) -> Pid;
                _ -> timer:sleep(50), activation(Grain, Turns - 1)
            end;
        undefined -> exit({no_activation, Grain});
        Pid -> Pid
    end.

%% Any rule is safe, since the directory lets one start at most. Here: spread by the name over those who are members now.
placed(Grain) ->
    {_, Silos} = grain_registry:members(),
    Nodes = lists:usort([Node || {_, active, Nodes} <- Silos, Node <- Nodes]),
    lists:nth(erlang:phash2(Grain, length(Nodes)) + 1, Nodes).

-spec start(grain()) -> gen_server:start_ret().
start(Grain = {Module, Key}) -> gen_server:start({via, grain_registry, Grain}, Module, Key, []).
