--- What the plug-in says in the last line of the screen: as much as is shown there, since Neovim takes no keys and no requests
--- before the user has pressed one where words are wider.
local api = vim.api
local text = require('vialshoal.text')

local M = {}

-- So many cells are used on however narrow a screen.
local LEAST_CELLS = 10

--- How many cells there are for words.
local function room()
  return math.max(LEAST_CELLS, vim.o.columns * math.max(0, vim.o.cmdheight - 1) + vim.v.echospace)
end

--- As much of words as the screen has room for.
function M.short(words)
  return text.line(words, room() - #'..')
end

--- Shows words, in place of what was said before.
local function show(words, is_kept)
  vim.cmd('redraw')
  api.nvim_echo({ { words } }, is_kept, {})
end

--- Says words that tell what the user looks at.
function M.passing(words)
  show(M.short(words), false)
end

--- Says words. Those that don't fit have their begin shown, and are in :messages, in lines that do.
function M.words(words)
  local lines = text.lines(tostring(words), room())
  for _, line in ipairs(lines) do
    show(line, true)
  end
  if #lines > 1 then
    M.passing(words)
  end
end

return M
