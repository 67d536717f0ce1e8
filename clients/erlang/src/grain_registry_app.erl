%% Processes that live and end together. If one ends, the fence kills what is registered here and hangs up, and all begin anew.
-module(grain_registry_app).
-behaviour(application).
-behaviour(supervisor).
-export([start/2, stop/1, init/1]).

-spec start(application:start_type(), term()) -> {ok, pid()}.
start(_Type, _Arguments) -> {ok, _} = supervisor:start_link({local, grain_registry_sup}, ?MODULE, []).

-spec stop(term()) -> ok.
stop(_State) -> application:unset_env(grain_registry, left).

%% The fence is the first, so that it is the last to end: until then the agent gives no name of this node to another.
-spec init([]) -> {ok, {supervisor:sup_flags(), [supervisor:child_spec()]}}.
init([]) ->
    Modules = [grain_fence, grain_hints, grain_members, grain_names, grain_finder, grain_reader],
    {ok, {#{strategy => one_for_all, intensity => 20, period => 10},
          [#{id => Module, start => {Module, start_link, []}, shutdown => shutdown(Module)} || Module <- Modules]}}.

shutdown(grain_fence) -> infinity;
shutdown(_) -> 1000.
