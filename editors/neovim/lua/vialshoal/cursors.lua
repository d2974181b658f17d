--- Others' cursors, selections and names, as extmarks.
local api = vim.api
local text = require('vialshoal.text')

local M = {}

local SPACE = api.nvim_create_namespace('vialshoal')

--- The highlight of a colour that the engine names.
local function highlight(colour)
  local digits = type(colour) == 'string' and colour:match('^#(%x%x%x%x%x%x)$') or '777777'
  local name = 'VialshoalPeer' .. digits
  api.nvim_set_hl(0, name, { bg = '#' .. digits, fg = '#ffffff', ctermbg = 4, ctermfg = 15 })
  return name
end

--- Shows one cursor.
local function show(buffer, lines, cursor)
  local group, name = highlight(cursor.colour), text.name(cursor.name)
  local row, column = text.position(lines, cursor.at)
  local line = lines[row + 1]
  local mark = {
    virt_text = { { ' ' .. name .. ' ', group } },
    virt_text_pos = 'eol',
    strict = false,
  }
  if column < #line then
    mark.end_row, mark.end_col, mark.hl_group = row, column + 1, group
    while mark.end_col < #line and line:byte(mark.end_col + 1) >= 0x80 and line:byte(mark.end_col + 1) < 0xc0 do
      mark.end_col = mark.end_col + 1
    end
  end
  api.nvim_buf_set_extmark(buffer, SPACE, row, column, mark)
  if cursor.anchor and cursor.anchor ~= cursor.at then
    local first_row, first_column = text.position(lines, math.min(cursor.at, cursor.anchor))
    local last_row, last_column = text.position(lines, math.max(cursor.at, cursor.anchor))
    api.nvim_buf_set_extmark(buffer, SPACE, first_row, first_column,
      { end_row = last_row, end_col = last_column, hl_group = 'Visual', strict = false })
  end
end

--- Shows others' cursors in a note whose text has these lines, and no more those that were shown.
function M.show(buffer, lines, cursors)
  api.nvim_buf_clear_namespace(buffer, SPACE, 0, -1)
  for _, cursor in ipairs(cursors) do
    show(buffer, lines, cursor)
  end
end

return M
