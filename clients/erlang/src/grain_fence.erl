%% The fence: what is registered here ends before anybody may take its names over. It has the table of names and the connection to the agent,
%% and ends both in this order: all processes that have a name are killed, and have ended; then it hangs up, by which the agent knows that. It
%% does so at the deadline, when the agent says that all is lost or is gone, and whenever it ends itself.
-module(grain_fence).
-behaviour(gen_server).
-export([start_link/0, connect/0, extend/1, fence/1, is_valid/0, kill/1]).
-export([init/1, handle_call/3, handle_cast/2, handle_info/2, terminate/2]).

-define(LOOK, 20).       % milliseconds between two looks at the clock: timers stand still while the machine sleeps
-define(PATIENCE, 2000). % for the agent's first words

-record(state, {socket = none :: none | gen_tcp:socket(), until = none :: none | integer()}).

-spec start_link() -> gen_server:start_ret().
start_link() -> gen_server:start_link({local, ?MODULE}, ?MODULE, [], []).

%% Connects to the agent. Answers the connection, and what came by it.
-spec connect() -> {ok, gen_tcp:socket(), binary()} | {error, term()}.
connect() -> gen_server:call(?MODULE, connect, infinity).

%% Work is allowed until then, in nanoseconds since boot.
-spec extend(integer()) -> ok.
extend(Until) -> gen_server:cast(?MODULE, {extend, Until}).

%% Ends all now, and all begins anew.
-spec fence(term()) -> ok.
fence(Why) -> gen_server:cast(?MODULE, {fence, Why}).

%% Whether work is allowed just now.
-spec is_valid() -> boolean().
is_valid() ->
    try ets:lookup(?MODULE, until) of
        [{until, Until}] -> grain_clock:latest() < Until;
        [] -> false
    catch error:badarg -> false
    end.

-spec init([]) -> {ok, #state{}}.
init([]) ->
    process_flag(trap_exit, true),
    process_flag(priority, high),
    grain_names = ets:new(grain_names, [named_table, public, {read_concurrency, true}]), % {Key, Pid, Token}
    ?MODULE = ets:new(?MODULE, [named_table, protected, {read_concurrency, true}]),
    {ok, #state{}}.

handle_call(connect, _From, S = #state{socket = none}) ->
    {ok, Path} = application:get_env(grain_registry, socket),
    case dial(Path) of
        {ok, Socket, Rest} -> {reply, {ok, Socket, Rest}, S#state{socket = Socket}};
        Error -> {reply, Error, S}
    end.

handle_cast({extend, Until}, S = #state{until = none}) ->
    look(),
    {noreply, extended(Until, S)};
handle_cast({extend, Until}, S = #state{until = Before}) -> {noreply, extended(max(Before, Until), S)};
handle_cast({fence, Why}, S) -> {stop, {shutdown, {fenced, Why}}, S}.

extended(Until, S) ->
    ets:insert(?MODULE, {until, Until}),
    S#state{until = Until}.

handle_info(look, S = #state{until = Until}) ->
    case grain_clock:latest() < Until of
        true -> look(), {noreply, S};
        false -> {stop, {shutdown, {fenced, deadline}}, S}
    end;
handle_info(_, S) -> {noreply, S}.

look() -> erlang:send_after(?LOOK, self(), look).

terminate(Why, #state{socket = Socket}) ->
    kill([Pid || Pid <- [whereis(grain_names)], is_pid(Pid)]), % so that nothing is registered any more
    Pids = [Pid || {_, Pid, _} <- ets:tab2list(grain_names)],
    kill(Pids),
    Pids =:= [] orelse logger:warning("grain_registry: ~p: ~b registered processes were killed", [Why, length(Pids)]),
    Socket =:= none orelse gen_tcp:close(Socket),
    ok.

%% Kills processes, and returns when they have ended.
-spec kill([pid()]) -> ok.
kill(Pids) ->
    Monitors = [{monitor(process, Pid), exit(Pid, kill)} || Pid <- Pids],
    lists:foreach(fun({Monitor, true}) -> receive {'DOWN', Monitor, process, _, _} -> ok end end, Monitors).

%% The agent's clock has to be the one that is looked at here.
dial(Path) ->
    Options = [local, binary, {active, false}, {high_watermark, 1 bsl 22}, {low_watermark, 1 bsl 21}],
    case gen_tcp:connect({local, Path}, 0, Options, ?PATIENCE) of
        {ok, Socket} ->
            Before = grain_clock:printed(),
            ok = gen_tcp:send(Socket, <<"c clock\n">>),
            case first_words(Socket, <<>>) of
                {clock, Now, Rest} ->
                    case grain_clock:is_of(Now, Before, grain_clock:printed()) of
                        true -> {ok, Socket, Rest};
                        false -> refused(Socket, "the agent's clock isn't that of /proc/uptime: they have to run in one container")
                    end;
                Error -> refused(Socket, Error)
            end;
        Error -> Error
    end.

refused(Socket, Why) ->
    gen_tcp:close(Socket),
    {error, Why}.

%% What the agent says up to its clock, and what it says beside that.
first_words(Socket, Before) ->
    case gen_tcp:recv(Socket, 0, ?PATIENCE) of
        {ok, Bytes} ->
            Text = <<Before/binary, Bytes/binary>>,
            case re:run(Text, "^c (.*)\n", [multiline, {capture, all, index}]) of
                {match, [{Start, Length}, {From, Size}]} ->
                    Rest = <<(binary:part(Text, 0, Start))/binary, (binary:part(Text, Start + Length, byte_size(Text) - Start - Length))/binary>>,
                    case binary:part(Text, From, Size) of
                        <<"clock ", Now/binary>> -> {clock, binary_to_integer(Now), Rest};
                        Words -> {agent_says, Words}
                    end;
                nomatch -> first_words(Socket, Text)
            end;
        Error -> Error
    end.
