--- A note's older texts, step by step, with who wrote what in colours.
local api = vim.api
local say = require('vialshoal.say')
local text = require('vialshoal.text')

local M = {}

local SPACE = api.nvim_create_namespace('vialshoal_history')
local GROUPS = { 'Identifier', 'Constant', 'Statement', 'PreProc', 'Type', 'Special' }
-- Of how many authors it is said how much of their text was left out.
local MOST_NAMED = 3

--- Who wrote a stretch or made a step.
function M.author(stretch)
  local name = text.name(stretch.name)
  return stretch.own and 'you' or name ~= '' and name or 'site ' .. tostring(stretch.site)
end

--- What is said of the step that a text came of.
local function words(steps, left_out, at)
  if at > #steps then
    return 'Left out, since others hold its place: ' .. M.left_out(left_out)
  end
  if at == 0 then
    return ('Before the first of %d steps'):format(#steps)
  end
  local step, did = steps[at], {}
  for _, each in ipairs({ 'typed', 'deleted', 'restored', 'looked' }) do
    if (step[each] or 0) > 0 then
      table.insert(did, ('%s %d'):format(each == 'looked' and 'changed the looks of' or each, step[each]))
    end
  end
  return ('Step %d of %d: %s %s'):format(at, #steps, M.author(step), table.concat(did, ', '))
end

--- How much was left out and whose it is, in words.
function M.left_out(of)
  local found = vim.tbl_map(function(one)
    return ('%d of %s'):format(one.characters, M.author(one))
  end, vim.list_slice(of, 1, MOST_NAMED))
  return table.concat(found, ', ') .. (#of > MOST_NAMED and ', ..' or '')
end

--- What was left out, each stretch in lines of its own, as the past is answered.
local function as_past(left_out)
  local parts, stretches, length = {}, {}, 0
  for _, one in ipairs(left_out) do
    table.insert(stretches, { site = one.site, begin = length, ['end'] = length + #one.text })
    local part = one.text:gsub('\n?$', '\n', 1)
    table.insert(parts, part)
    length = length + #part
  end
  return { text = table.concat(parts), stretches = stretches }
end

--- Shows the text of an answer.
local function show(buffer, answer)
  local lines = vim.split(answer.text, '\n', { plain = true })
  vim.bo[buffer].modifiable = true
  api.nvim_buf_clear_namespace(buffer, SPACE, 0, -1)
  api.nvim_buf_set_lines(buffer, 0, -1, false, lines)
  vim.bo[buffer].modifiable = false
  for _, stretch in ipairs(answer.stretches) do
    local row, column = text.position(lines, stretch.begin)
    local last_row, last_column = text.position(lines, stretch['end'])
    api.nvim_buf_set_extmark(buffer, SPACE, row, column, {
      end_row = last_row, end_col = last_column, hl_group = GROUPS[stretch.site % #GROUPS + 1], strict = false,
    })
  end
end

--- A buffer that shows older texts, in a window of its own. Nothing in them is obeyed.
local function scratch()
  vim.cmd('belowright new')
  local buffer = api.nvim_get_current_buf()
  for name, value in pairs({ buftype = 'nofile', bufhidden = 'wipe', swapfile = false, modeline = false,
    undolevels = -1, modifiable = false }) do
    vim.bo[buffer][name] = value
  end
  return buffer
end

--- Goes through the steps of a note; behind the last one is what was left out.
local function browse(note, steps, left_out)
  local buffer, at = scratch(), nil

  local function go(to)
    at = math.max(0, math.min(to, #left_out > 0 and #steps + 1 or #steps))
    if at > #steps then
      show(buffer, as_past(left_out))
      say.passing(words(steps, left_out, at))
      return
    end
    local asked = at
    note:ask({ ['do'] = 'past', at = at == 0 and 0 or steps[at]['end'] }, function(answer)
      if answer.text and asked == at and api.nvim_buf_is_valid(buffer) then
        show(buffer, answer)
        say.passing(words(steps, left_out, at))
      end
    end)
  end

  local function map(key, to)
    vim.keymap.set('n', key, to, { buffer = buffer, nowait = true })
  end
  map('n', function() go(at + vim.v.count1) end)
  map('p', function() go(at - vim.v.count1) end)
  map('<lt>', function() go(0) end)
  map('>', function() go(#steps) end)
  map('q', '<Cmd>close<CR>')
  go(#steps)
end

--- Asks for all steps of a note's history, and goes through them.
function M.open(note, steps, from)
  steps = steps or {}
  note:ask({ ['do'] = 'history', from = from or 0 }, function(answer)
    if answer.error then
      return
    end
    vim.list_extend(steps, answer.steps)
    local last = answer.steps[#answer.steps]
    if last and last['end'] < answer.length then
      M.open(note, steps, last['end'])
    else
      browse(note, steps, answer.left_out or {})
    end
  end)
end

return M
