%% A virtual actor: grain:call({counter, Key}, add) counts, from any node, and the count survives the node where it is kept, since it stands in a
%% store. The actor has its name before init is called, and its token with it.
-module(counter).
-behaviour(gen_server).
-export([init/1, handle_call/3, handle_cast/2, handle_info/2]).

-define(IDLE, 60000). % milliseconds without a call until it ends; the next call starts it again

-record(counter, {key, store, token, count}).

init(Key) ->
    {ok, Store} = application:get_env(grain_registry, counter_store),
    Token = grain_registry:token({?MODULE, Key}),
    {ok, Count} = token_store:open(Store, Key, Token),
    {ok, #counter{key = Key, store = Store, token = Token, count = case Count of none -> 0; _ -> Count end}, ?IDLE}.

handle_call(add, _From, S = #counter{key = Key, store = Store, token = Token, count = Count}) ->
    case grain_registry:may({?MODULE, Key}) andalso token_store:write(Store, Key, Token, Count + 1) of
        ok -> {reply, {node(), Token, Count + 1}, S#counter{count = Count + 1}, ?IDLE};
        Refused -> {stop, normal, {lost, Refused}, S}
    end.

handle_cast(_, S) -> {noreply, S, ?IDLE}.

handle_info(timeout, S) -> {stop, normal, S}.
