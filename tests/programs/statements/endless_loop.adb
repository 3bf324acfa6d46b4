--  A loop without an end, with a limit of --steps 100 (RM 5.5).
procedure Endless_Loop is
begin
   loop
      null;
   end loop;
end Endless_Loop;
