%% A registry of processes for the whole cluster: a name is one process' at most, whatever becomes of messages and of nodes. It is for
%% {via, grain_registry, Name}, where a name is any term. README.md says what it rests on.
-module(grain_registry).
-export([register_name/2, unregister_name/1, whereis_name/1, send/2]).
-export([hand_over/2, token/1, may/1, registered_names/0, members/0, leave/0]).

-define(WAIT, 30000). % milliseconds for a node that isn't a member just now, or has too much to do
-define(PAUSE, 50).
-define(TURNS, 5). % until a name that is always somewhere else is taken for nobody's
-define(BEGINS_ANEW(Why), Why =:= noproc; Why =:= killed; Why =:= shutdown; element(1, Why) =:= shutdown).

%% Gives a name to a process; no if another has it. Exits with {refused, Code} where the agent refuses, and with timeout.
-spec register_name(Name :: term(), pid()) -> yes | no.
register_name(Name, Pid) when is_pid(Pid) ->
    Key = grain_term:key(Name),
    case patiently(fun() -> grain_names:register(Key, Pid) end) of
        yes -> yes;
        no -> no;
        Refused -> exit(Refused)
    end.

%% Answers when the name is free again. The process lives on, and has ended its work under that name.
-spec unregister_name(Name :: term()) -> ok.
unregister_name(Name) ->
    Key = grain_term:key(Name),
    try at_holder(Key, fun(Pid) -> grain_names:unregister(Key, Pid) end) of
        _ -> ok
    catch exit:{Why, _} when ?BEGINS_ANEW(Why) -> ok % what was registered at that node has ended
    end.

%% The process that has a name. At another node it may be one that has just given it up.
-spec whereis_name(Name :: term()) -> pid() | undefined.
whereis_name(Name) -> where(grain_term:key(Name)).

where(Key) ->
    case here(Key) of
        {Pid, _} -> Pid;
        none ->
            case grain_hints:find(Key) of
                none -> ask_where(Key);
                Pid -> Pid
            end
    end.

ask_where(Key) ->
    case patiently(fun() -> grain_finder:where(Key) end) of
        Pid when is_pid(Pid) -> Pid;
        undefined -> undefined;
        Refused -> exit(Refused)
    end.

%% Asks the node of the process that has a name, once: where all begins anew there meanwhile, another may have the name by then, and isn't to lose
%% it. Only where a hint was old the directory says who has it.
at_holder(Key, Ask) ->
    case here(Key) of
        {Pid, _} -> Ask(Pid);
        none -> at_holder(where(Key), Key, Ask, ?TURNS)
    end.

at_holder(undefined, _, _, _) -> gone;
at_holder(_, _, _, 0) -> gone;
at_holder(Pid, Key, Ask, Turns) ->
    case Ask(Pid) of
        gone -> at_holder(ask_where(Key), Key, Ask, Turns - 1);
        Answer -> Answer
    end.

-spec send(Name :: term(), Message) -> pid() when Message :: term().
send(Name, Message) ->
    case whereis_name(Name) of
        undefined -> exit({badarg, {Name, Message}});
        Pid -> Pid ! Message, Pid
    end.

%% The name goes from its process, which works under it no more, to another one, at any node; no if that one's node didn't get it. At no time
%% have two of them the name. Exits where all begins anew at the process' node meanwhile: then either may have come of it.
-spec hand_over(Name :: term(), pid()) -> yes | no.
hand_over(Name, Pid) when is_pid(Pid) ->
    Key = grain_term:key(Name),
    case at_holder(Key, fun(Old) -> grain_names:hand_over(Key, Old, Pid) end) of
        yes -> yes;
        {refused, Why} -> exit({refused, Why});
        _ -> no
    end.

%% A number that never falls from one process that has a name to the next, and rises across the death of a node: a store that refuses a lower one
%% than its highest is safe even from a process that was frozen. For a name that is registered at this node.
-spec token(Name :: term()) -> non_neg_integer().
token(Name) ->
    case here(grain_term:key(Name)) of
        {_, Token} -> Token;
        none -> error(badarg)
    end.

%% Whether this process may work under a name just now.
-spec may(Name :: term()) -> boolean().
may(Name) ->
    case here(grain_term:key(Name)) of
        {Pid, _} when Pid =:= self() -> grain_fence:is_valid();
        _ -> false
    end.

%% Those of this node's processes.
-spec registered_names() -> [Name :: term()].
registered_names() ->
    try [binary_to_term(Key) || {Key, _, _} <- ets:tab2list(grain_names)]
    catch error:badarg -> []
    end.

%% The directory's version, and the silos that are members, with the nodes at each.
-spec members() -> grain_members:members().
members() -> grain_members:members().

%% This node takes no names any more. Hand over or end what it has, and stop the application, which kills the rest.
-spec leave() -> ok.
leave() -> grain_members:leave().

here(Key) ->
    try ets:lookup(grain_names, Key) of
        [{_, Pid, Token}] -> {Pid, Token};
        [] -> none
    catch error:badarg -> none
    end.

%% Asks again where the registry begins anew just then, or has too much to do.
patiently(Ask) -> patiently(Ask, erlang:monotonic_time(millisecond) + ?WAIT).

patiently(Ask, Until) ->
    Answer = try Ask()
             catch exit:{Why, _} when ?BEGINS_ANEW(Why) -> {refused, Why}
             end,
    case Answer of
        {refused, Again} when Again =/= <<"leaving">>, not is_binary(Again) orelse Again =:= <<"busy">> orelse Again =:= <<"lost">> ->
            erlang:monotonic_time(millisecond) < Until orelse exit(Answer),
            timer:sleep(?PAUSE),
            patiently(Ask, Until);
        _ -> Answer
    end.
