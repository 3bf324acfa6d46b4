--  Nothing is declared, and nothing shown (RM 5.1).
procedure Null_Statement is
begin
   null;
end Null_Statement;
