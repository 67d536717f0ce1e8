%% What a node does in tools/names-chaos: processes take few names, write the time, all the time, while they work, and give them up again. A folder
%% has all that is said: `phase` what is to be done, NODE.PHASE that it is done.
-module(grain_works).
-export([main/1, works/2, work/2]).

-define(NAMES, 12).
-define(WORKERS, 4).
-define(CHECKED, 3). % names that each node takes at a quiet end
-define(NODES, 4).

main([Folder, Socket, Self]) ->
    ok = application:load(grain_registry),
    ok = application:set_env(grain_registry, socket, Socket),
    {ok, _} = application:ensure_all_started(grain_registry),
    rand:seed(exsss, os:system_time()),
    [spawn(?MODULE, works, [Folder, rand:uniform(1 bsl 32)]) || _ <- lists:seq(1, ?WORKERS)],
    phases(Folder, Self, <<>>).

phases(Folder, Self, Done) ->
    timer:sleep(20),
    case phase(Folder) of
        Done -> phases(Folder, Self, Done);
        Phase ->
            [Kind, _Number] = binary:split(Phase, <<" ">>),
            Said = try obey(binary_to_atom(Kind), Self) catch Class:Why -> {Class, Why} end,
            case Said of
                done -> say(Folder, Self, Phase, "done"), phases(Folder, Self, Phase);
                _ -> say(Folder, Self, <<"trouble">>, io_lib:format("~s: ~p", [Phase, Said])), phases(Folder, Self, Done)
            end
    end.

phase(Folder) ->
    case file:read_file(filename:join(Folder, "phase")) of
        {ok, Phase} -> Phase;
        _ -> <<>>
    end.

say(Folder, Self, Phase, Text) ->
    File = filename:join(Folder, lists:concat([Self, ".", binary_to_list(binary:replace(Phase, <<" ">>, <<".">>))])),
    ok = file:write_file(File ++ ".new", Text),
    ok = file:rename(File ++ ".new", File).

obey(work, Self) ->
    [grain_registry:unregister_name(Name) || Name <- checked(Self)],
    done;
%% Nothing is registered, and all nodes are members and connected.
obey(quiet, _) ->
    {_, Silos} = grain_registry:members(),
    Members = lists:usort([Node || {_, active, Nodes} <- Silos, Node <- Nodes]),
    case {grain_registry:registered_names(), length(Silos), Members -- [node() | nodes()]} of
        {[], ?NODES, []} when length(Members) =:= ?NODES -> done;
        Otherwise -> Otherwise
    end;
%% No name is anybody's, and each can be had.
obey(take, Self) ->
    [] = [Name || Name <- lists:seq(1, ?NAMES), grain_finder:where(grain_term:key({n, Name})) =/= undefined],
    [case grain_registry:whereis_name(Name) of
         undefined -> yes = grain_registry:register_name(Name, spawn(fun() -> timer:sleep(infinity) end));
         Pid -> true = node(Pid) =:= node()
     end || Name <- checked(Self)],
    done;
%% All are found, by hints and by the directory. What a node lost meanwhile, as one that is fenced does, it takes again.
obey(look, Self) ->
    done = obey(take, Self),
    [begin
         Pid = grain_finder:where(grain_term:key(Name)),
         true = is_pid(Pid),
         Pid = grain_registry:whereis_name(Name)
     end || K <- lists:seq(1, ?NODES), Name <- checked(lists:concat(["v", K]))],
    done.

checked(Self) -> [{check, Self, K} || K <- lists:seq(1, ?CHECKED)].

%% Takes names, again and again, while that is the phase.
works(Folder, Seed) ->
    rand:seed(exsss, Seed),
    works_on(Folder).

works_on(Folder) ->
    case phase(Folder) of
        <<"work ", _/binary>> -> life(Folder, rand:uniform(?NAMES));
        _ -> ok
    end,
    timer:sleep(rand:uniform(60)),
    works_on(Folder).

life(Folder, Name) ->
    Pid = spawn(?MODULE, work, [Folder, Name]),
    case catch grain_registry:register_name({n, Name}, Pid) of
        yes -> Pid ! go;
        _ -> exit(Pid, kill)
    end.

%% Works under a name for a while. Then the process just ends, gives the name up, or hands it over to one at another node. Every second one asks
%% before each stamp whether it may, as applications are told to; the others rely on being killed.
work(Folder, Name) ->
    receive go -> ok after 60000 -> exit(normal) end,
    Token = grain_registry:token({n, Name}),
    [Self, _] = string:split(atom_to_list(node()), "@"),
    {Kind, May} = case rand:uniform(2) of
                      1 -> {asks, fun() -> grain_registry:may({n, Name}) end};
                      2 -> {relies, fun() -> true end}
                  end,
    Words = [Name, Token, Self, Kind, os:getpid(), erlang:unique_integer([positive])],
    {ok, File} = file:open(filename:join([Folder, "stamps", lists:join("-", [lists:concat([W]) || W <- Words])]), [write, raw, binary]),
    Long = case rand:uniform(4) of 1 -> 10000; _ -> 400 end,
    stamp(File, Folder, May, os:system_time(nanosecond) + Long * rand:uniform(1000) * 1000),
    case {rand:uniform(4), nodes()} of
        {1, _} -> ok;
        {2, [_ | _] = Others} ->
            Pid = spawn(lists:nth(rand:uniform(length(Others)), Others), ?MODULE, work, [Folder, Name]),
            case catch grain_registry:hand_over({n, Name}, Pid) of
                yes -> Pid ! go;
                _ -> exit(Pid, kill)
            end;
        _ -> grain_registry:unregister_name({n, Name})
    end.

stamp(File, Folder, May, Until) ->
    Now = os:system_time(nanosecond),
    case Now < Until andalso (Now band 15 =/= 0 orelse is_working(Folder)) of
        true ->
            May() andalso (ok = file:write(File, <<(os:system_time(nanosecond)):64>>)),
            timer:sleep(rand:uniform(2) - 1),
            stamp(File, Folder, May, Until);
        false -> file:close(File)
    end.

is_working(Folder) ->
    case phase(Folder) of
        <<"work ", _/binary>> -> true;
        _ -> false
    end.
