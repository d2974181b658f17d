--- A note with no engine: what is sent is kept, and the test has lines come.
local Note = require('vialshoal.note')
local support = require('test.support')

local M = {}

--- A note in the current window that the answer `opened` opens. It has `sent`, `told` and `now` for the test.
function M.note(opened)
  local buffer = vim.api.nvim_create_buf(true, false)
  vim.bo[buffer].fixendofline = false
  vim.bo[buffer].undolevels = -1
  vim.api.nvim_set_current_buf(buffer)
  local note
  local function send(line)
    table.insert(note.sent, line)
  end
  note = Note.new(buffer, send, function() return note.now end, {
    words = function(words) note.told.words = words end,
    cursors = function() end,
    remarks = function() require('vialshoal.review').noticed(note) end,
    state = function() end,
    beside = function(words) note.told.beside = words end,
  })
  note.sent, note.told, note.now = {}, {}, 0
  vim.api.nvim_buf_attach(buffer, false, {
    on_bytes = function(_, _, _, row, column, _, _, _, gone, _, _, came) note:hinted(row, column, gone, came) end,
    on_lines = function(_, _, _, first, last, new_last) note:changed(first, last, new_last) end,
  })
  note:opened(opened)
  return note
end

--- A note that has this text.
function M.with(words)
  return M.note({ answer = 'open', text = words, version = 0, edits = 0 })
end

--- What was sent since this was asked last.
function M.all_sent(note)
  local sent = note.sent
  note.sent = {}
  return sent
end

--- The same without the numbers of what is said once.
function M.sent(note)
  return vim.tbl_map(function(line)
    local found = vim.tbl_extend('force', {}, line)
    found.once = nil
    return found
  end, M.all_sent(note))
end

--- The changes of what was sent.
function M.changes(note)
  note:flush()
  local found = {}
  for _, line in ipairs(M.sent(note)) do
    vim.list_extend(found, line.changes or {})
  end
  note:take({ answer = 'edit', edits = note.made })
  return found
end

--- Has others make changes.
function M.others(note, ...)
  note:flush()
  note:take({ notice = 'changes', version = note.version + 1, edits = note.made, changes = { ... } })
end

--- Checks that the lines that are known are those of the buffer.
function M.check(note)
  support.same(vim.api.nvim_buf_get_lines(note.buffer, 0, -1, false), note.lines, 'known lines')
end

return M
