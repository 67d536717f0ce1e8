%% A store that tests tokens, for the example: a key has a value, and the highest token that it was opened or written with. Who comes with a lower
%% one has lost its name to another meanwhile, and is refused; so even a process that was frozen in the middle can't write behind its successor.
-module(token_store).
-behaviour(gen_server).
-export([start/1, open/3, write/4]).
-export([init/1, handle_call/3, handle_cast/2]).

start(File) -> gen_server:start({local, ?MODULE}, ?MODULE, File, []).

%% The value of a key, none if it has none. From here on lower tokens are refused.
open(Node, Key, Token) -> gen_server:call({?MODULE, Node}, {open, Key, Token}).

write(Node, Key, Token, Value) -> gen_server:call({?MODULE, Node}, {write, Key, Token, Value}).

init(File) -> dets:open_file(?MODULE, [{file, File}]).

handle_call(Request, _From, Table) ->
    {Key, Token} = {element(2, Request), element(3, Request)},
    {Highest, Value} = case dets:lookup(Table, Key) of
                           [{_, H, V}] -> {H, V};
                           [] -> {0, none}
                       end,
    case Request of
        _ when Token < Highest -> {reply, {refused, Highest}, Table};
        {open, _, _} -> {reply, {ok, Value}, written(Table, {Key, Token, Value})};
        {write, _, _, New} -> {reply, ok, written(Table, {Key, Token, New})}
    end.

handle_cast(_, Table) -> {noreply, Table}.

written(Table, Row) ->
    ok = dets:insert(Table, Row),
    ok = dets:sync(Table),
    Table.
