--- What the tests stand on.
local M = { passed = 0, failed = 0 }

-- So many milliseconds are waited for what has to come; a busy machine can be slow.
M.PATIENCE = 300000

M.top = vim.fn.fnamemodify(debug.getinfo(1, 'S').source:sub(2), ':p:h:h')

--- Tells a line.
function M.tell(words)
  io.stdout:write(words, '\n')
end

--- Runs a test.
function M.test(name, body)
  local begin = vim.loop.hrtime()
  local is_done, why = xpcall(body, debug.traceback)
  if is_done then
    M.passed = M.passed + 1
  else
    M.failed = M.failed + 1
    M.tell(('FAILED %s: %s'):format(name, why):gsub('stack traceback.*', ''))
  end
  M.tell(('%s %s (%.2f s)'):format(is_done and 'passed' or 'failed', name, (vim.loop.hrtime() - begin) / 1e9))
end

--- Ends with what passed and failed.
function M.finish()
  M.tell(('%d passed, %d failed'):format(M.passed, M.failed))
  vim.cmd(M.failed == 0 and M.passed > 0 and 'qa!' or 'cq!')
end

--- Checks that two values are alike.
function M.same(wanted, found, of)
  if not vim.deep_equal(wanted, found) then
    error(('%s: wanted %s, found %s'):format(of or 'values', vim.inspect(wanted), vim.inspect(found)), 2)
  end
end

--- Waits until a condition has a value, and returns that.
function M.wait(condition, what)
  local value
  if not vim.wait(M.PATIENCE, function()
    value = condition()
    return value
  end, 5) then
    error('waited too long for ' .. (what or 'something'), 2)
  end
  return value
end

--- Calls a body while a field of a table is another one.
function M.with(owner, name, other, body)
  local kept = owner[name]
  owner[name] = other
  local is_done, why = xpcall(body, debug.traceback)
  owner[name] = kept
  assert(is_done, why)
end

--- Has two paths be each other's, at once: between two steps an engine could make a new folder.
function M.exchange(one, other)
  local ffi = require('ffi')
  ffi.cdef('int renameat2(int, const char *, int, const char *, unsigned int);')
  local here, at_once = -100, 2
  assert(ffi.C.renameat2(here, one, here, other, at_once) == 0, one .. ' can\'t be exchanged')
end

--- The text of a note's buffer.
function M.text(note)
  return require('vialshoal.text').join(vim.api.nvim_buf_get_lines(note.buffer, 0, -1, false), note.has_end)
end

return M
