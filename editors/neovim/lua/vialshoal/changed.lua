--- What came into a note since its user looked at it, as highlights, and what went, behind its line.
local api = vim.api
local history = require('vialshoal.history')
local review = require('vialshoal.review')
local text = require('vialshoal.text')

local M = {}

local SPACE = api.nvim_create_namespace('vialshoal_changed')
local MOST_CELLS = 60

--- Shows no more what changed.
function M.clear(note)
  api.nvim_buf_clear_namespace(note.buffer, SPACE, 0, -1)
end

--- Of whom a stretch is, and by whom it came or went, where that is somebody else.
local function whose(stretch)
  local by = stretch.by.site ~= stretch.site and ', by ' .. history.author(stretch.by) or ''
  return 'of ' .. history.author(stretch) .. by
end

--- Marks a stretch that came; returns it as a list of places has it.
local function came(note, stretch, position)
  local row, column = position(stretch.begin)
  local last_row, last_column = position(stretch['end'])
  api.nvim_buf_set_extmark(note.buffer, SPACE, row, column, {
    end_row = last_row, end_col = last_column, hl_group = 'VialshoalCame', strict = false,
  })
  return { bufnr = note.buffer, lnum = row + 1, col = column + 1, text = 'Came, ' .. whose(stretch) }
end

--- Shows a stretch that went; returns it as a list of places has it.
local function went(note, stretch, position)
  local row, column = position(stretch.at)
  api.nvim_buf_set_extmark(note.buffer, SPACE, row, column, {
    virt_text = { { ' ' .. text.line(stretch.text, MOST_CELLS), 'VialshoalWent' } }, virt_text_pos = 'eol', strict = false,
  })
  local words = ('Went, %s: %s'):format(whose(stretch), text.line(stretch.text, MOST_CELLS))
  return { bufnr = note.buffer, lnum = row + 1, col = column + 1, text = words }
end

local function show(note, answer)
  review.set_highlights()
  M.clear(note)
  local position, items = text.positions(note.lines), {}
  for _, stretch in ipairs(answer.came) do
    table.insert(items, came(note, stretch, position))
  end
  for _, stretch in ipairs(answer.went) do
    table.insert(items, went(note, stretch, position))
  end
  table.sort(items, function(one, other)
    return one.lnum < other.lnum or one.lnum == other.lnum and one.col < other.col
  end)
  vim.fn.setqflist({}, ' ', { title = 'What changed in ' .. (note.name or ''), items = items })
  note.shows.words(#items == 0 and 'Nothing has changed since you looked.'
    or ('%d changed: :cnext goes there, :VialshoalChanged! ends it.'):format(#items))
end

--- Shows what changed since the user looked, or since so many hours.
function M.open(note, hours)
  local since = hours and { time = math.max(0, math.floor(os.time() - hours * 3600)) } or 'looked'
  review.ask(note, { ['do'] = 'changed', since = since }, function(answer) show(note, answer) end)
end

return M
