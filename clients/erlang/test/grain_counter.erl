%% A process for tests: counts, and tells where it is.
-module(grain_counter).
-behaviour(gen_server).
-export([start/1, init/1, handle_call/3, handle_cast/2]).

start(Name) -> gen_server:start({via, grain_registry, Name}, ?MODULE, Name, []).

init(Name) -> {ok, {Name, 0}}.

handle_call(add, _From, {Name, Count}) -> {reply, {node(), Count + 1}, {Name, Count + 1}};
handle_call(token, _From, {Name, Count}) -> {reply, grain_registry:token(Name), {Name, Count}};
handle_call(stop, _From, S) -> {stop, normal, ok, S}.

handle_cast(_, S) -> {noreply, S}.
