--  Calls are conditions: `and then` leaves out the call that it does not need, and `or` makes both (RM 4.5.1, 5.3).
with Ada.Text_IO; use Ada.Text_IO;

procedure Conditions is
   function Says (B : Boolean; N : Integer) return Boolean is
   begin
      Put (Integer'Image (N));
      return B;
   end Says;
begin
   if Says (False, 1) and then Says (True, 2) then
      Put ("no");
   end if;
   if Says (False, 3) or Says (True, 4) then
      Put ("yes");
   end if;
   New_Line;
end Conditions;
