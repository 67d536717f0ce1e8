%% A port that leads to another, while it is open. One that is shut loses what comes, and answers nothing; where something was lost, the
%% connection ends when the door is opened.
-module(grain_door).
-export([open/1, none/1, port/1, shut/1, reopen/1, close/1]).

open(To) ->
    Own = self(),
    Keeper = spawn(fun() ->
                           {ok, Listener} = gen_tcp:listen(0, [binary, {ip, {127, 0, 0, 1}}, {active, true}, {nodelay, true}, {backlog, 64}]),
                           {ok, Port} = inet:port(Listener),
                           Table = ets:new(door, [public]),
                           ets:insert(Table, {open, true}),
                           Own ! {self(), Port, Table},
                           accept(Listener, To, Table)
                   end),
    receive {Keeper, Port, Table} -> {Keeper, Port, Table} end.

%% No door: the port itself, for measures.
none(To) -> {none, To, none}.

port({_, Port, _}) -> Port.

shut({_, _, Table}) -> ets:insert(Table, {open, false}).
reopen({_, _, Table}) -> ets:insert(Table, {open, true}).
close({none, _, _}) -> true;
close({Keeper, _, _}) -> exit(Keeper, kill).

accept(Listener, To, Table) ->
    {ok, Socket} = gen_tcp:accept(Listener),
    Pid = spawn_link(fun() -> receive go -> ok end, lead(Socket, To, Table) end),
    ok = gen_tcp:controlling_process(Socket, Pid),
    Pid ! go,
    accept(Listener, To, Table).

lead(Socket, To, Table) ->
    case gen_tcp:connect({127, 0, 0, 1}, To, [binary, {active, true}, {nodelay, true}]) of
        {ok, Other} -> carry(Socket, Other, Table);
        {error, _} -> gen_tcp:close(Socket)
    end.

carry(Socket, Other, Table) ->
    receive
        {tcp, From, Data} ->
            case is_open(Table) of
                true ->
                    gen_tcp:send(case From of Socket -> Other; Other -> Socket end, Data),
                    carry(Socket, Other, Table);
                false -> broken(Socket, Other, Table)
            end;
        {tcp_closed, _} -> gen_tcp:close(Socket), gen_tcp:close(Other);
        {tcp_error, _, _} -> gen_tcp:close(Socket), gen_tcp:close(Other)
    end.

%% Something was lost, so this connection carries nothing any more; its ends hear that once the door is open again.
broken(Socket, Other, Table) ->
    receive _ -> broken(Socket, Other, Table)
    after 20 ->
        case is_open(Table) of
            true -> gen_tcp:close(Socket), gen_tcp:close(Other);
            false -> broken(Socket, Other, Table)
        end
    end.

is_open(Table) -> ets:lookup(Table, open) =:= [{open, true}].
