-- The settings of luacheck for the Neovim plug-in, whose Lua is LuaJIT.
std = "luajit"
max_line_length = 140
read_globals = { "vim" }
-- Options, variables and callbacks are set as fields of these.
globals = { "vim.g", "vim.o", "vim.bo", "vim.wo", "vim.env", "vim.v", "vim.b", "vim.opt" }
