--- Undo, which is the engine's: what Vim's keys and commands for its own ask for here.
local api = vim.api
local say = require('vialshoal.say')

local M = {}

local INSTEAD = 'Use u and CTRL-R, with counts, or :VialshoalHistory.'
-- So many edits are taken back at once at most.
local MOST_TIMES = 1000
-- Vim's commands, how short each can be, and what a count of edits asks for.
local COMMANDS = {
  undo = { least = 1, asks = 'undo', takes_no_count = true },
  redo = { least = 3, asks = 'redo', takes_no_count = true },
  earlier = { least = 2, asks = 'undo' },
  later = { least = 3, asks = 'redo' },
  undolist = { least = 5 },
  undojoin = { least = 5 },
}
local NOTHING = { undo = 'You have nothing to take back.', redo = 'You have taken nothing back.' }

--- Asks a note's engine so many times, at once, so that nothing that is typed meanwhile comes in between.
function M.ask(note, what, count)
  for number = 1, math.min(count or 1, MOST_TIMES) do
    note:ask({ ['do'] = what }, function(answer)
      if number == 1 and not answer.done and not answer.error then
        say.words(NOTHING[what])
      end
    end)
  end
end

--- What a command line's first word stands for in a note's buffer.
function M.expand(word, command)
  local is_command = vim.fn.getcmdtype() == ':' and vim.fn.getcmdline() == word
  return is_command and 'VialshoalUndo ' .. command or word
end

--- Does what one of Vim's commands is to do.
local function run(name, argument)
  local command = COMMANDS[name]
  local is_right = command and command.asks
    and (argument == nil or not command.takes_no_count and argument:find('^%d+$') ~= nil)
  if not is_right then
    return say.words(INSTEAD)
  end
  require('vialshoal')[command.asks](tonumber(argument))
end

local function set_keys(buffer)
  local function map(key, call, words)
    vim.keymap.set('n', key, call, { buffer = buffer, desc = words })
  end
  local function undo() require('vialshoal').undo(vim.v.count1) end
  local function redo() require('vialshoal').redo(vim.v.count1) end
  map('u', undo, 'Take back your own last edit')
  map('g-', undo, 'Take back your own last edit')
  map('<C-r>', redo, 'Make it again')
  map('g+', redo, 'Make it again')
  map('U', function() say.words(INSTEAD) end, 'Say what takes back')
end

--- Has a buffer's keys and commands ask the engine.
function M.set_up(buffer)
  set_keys(buffer)
  api.nvim_buf_create_user_command(buffer, 'VialshoalUndo', function(given)
    run(given.fargs[1], given.fargs[2])
  end, { nargs = '+', desc = "Do what Vim's command of this name is to do in a note" })
  api.nvim_buf_call(buffer, function()
    for name, command in pairs(COMMANDS) do
      for length = command.least, #name do
        local word = name:sub(1, length)
        vim.cmd(("cnoreabbrev <buffer> <expr> %s v:lua.require'vialshoal.undo'.expand('%s', '%s')"):format(word, word, name))
      end
    end
  end)
end

return M
