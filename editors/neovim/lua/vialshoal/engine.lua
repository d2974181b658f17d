--- The engine's process: lines to it, and lines from it.
local M = {}

-- The pause between two looks whether engines that were sent `close` have ended.
local LOOK_MILLISECONDS = 10

-- The process ids of engines that were sent `close` and haven't ended, by their jobs.
local ending = {}

--- Starts an engine. `took` is called with each line that it says, `ended` with what it wrote of its own trouble.
function M.start(command, environment, took, ended)
  local piece, errors = {}, {}

  -- Neovim hands over parts of lines: what a list begins with goes on with what the last one ended with.
  local function read(_, data)
    for number, part in ipairs(data) do
      if number > 1 then
        local line = table.concat(piece)
        piece = {}
        took(line)
      end
      piece[#piece + 1] = part
    end
  end

  return vim.fn.jobstart(command, {
    env = environment,
    on_stdout = read,
    on_stderr = function(_, data)
      vim.list_extend(errors, data)
    end,
    on_exit = function(job)
      ending[job] = nil
      ended(vim.trim(table.concat(errors, '\n')))
    end,
  })
end

--- Sends a line. An engine that has ended takes none, and its end is told elsewhere.
function M.send(job, line)
  pcall(vim.api.nvim_chan_send, job, vim.json.encode(line) .. '\n')
end

--- Says that no more lines come.
function M.close(job)
  local is_there, process = pcall(vim.fn.jobpid, job)
  ending[job] = is_there and process or nil
  M.send(job, { ['do'] = 'close' })
  pcall(vim.fn.chanclose, job, 'stdin')
end

--- Waits until all engines that were sent `close` have ended, `patience` milliseconds at most. Neovim kills them as it ends,
--- and an engine ends by itself once it has read all lines.
---
--- jobwait() isn't used because it keeps hold of the job. If the terminal is gone, Neovim's end would wait for that job forever.
function M.wait(patience)
  vim.wait(patience, function()
    for _, process in pairs(ending) do
      if vim.loop.kill(process, 0) then
        return false
      end
    end
    return true
  end, LOOK_MILLISECONDS)
end

return M
