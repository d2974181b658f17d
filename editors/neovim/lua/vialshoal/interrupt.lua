--- CTRL-C, by which a user ends a macro. While it is pending, each call that Neovim guards fails, though it has done
--- its work: where such calls belong together, what is known of the text would be wrong.
local M = {}

--- Whether an error is that CTRL-C was pressed.
function M.is_told_by(why)
  return tostring(why):find('Keyboard interrupt', 1, true) ~= nil
end

--- Has CTRL-C be pending.
function M.press()
  vim.api.nvim_input('<C-c>')
end

--- Whether CTRL-C was pending. It isn't any more.
function M.take()
  local is_done, why = pcall(vim.fn.mode)
  return not is_done and M.is_told_by(why)
end

--- Calls a function that CTRL-C isn't to break off: it is pending again behind that.
function M.behind(call, ...)
  local was_pressed = M.take()
  local is_done, why = pcall(call, ...)
  if was_pressed then
    M.press()
  end
  if not is_done then
    error(why, 0)
  end
end

return M
