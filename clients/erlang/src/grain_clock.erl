%% Time since boot, which runs on while the machine sleeps: the clock of the agent's deadlines. Erlang's own clocks stand still then.
-module(grain_clock).
-export([latest/0, is_of/3, printed/0]).

-define(STEP, 10000000).

%% Nanoseconds since boot, rounded up.
-spec latest() -> integer().
latest() -> printed() + ?STEP.

%% As the kernel prints it: in steps of 10 ms, rounded down.
-spec printed() -> integer().
printed() ->
    {ok, File} = file:open("/proc/uptime", [raw, read, binary]),
    {ok, Text} = file:read(File, 64),
    ok = file:close(File),
    [Seconds, Hundredths | _] = binary:split(Text, [<<".">>, <<" ">>], [global]),
    binary_to_integer(Seconds) * 1000000000 + binary_to_integer(Hundredths) * ?STEP.

%% Whether a clock that said Now, between two looks at this one, is this one. In a container it may be another.
-spec is_of(integer(), integer(), integer()) -> boolean().
is_of(Now, Before, After) -> Now >= Before andalso Now =< After + ?STEP.
