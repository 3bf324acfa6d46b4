--  The exception of a procedure that is called in a loop leaves the loop, and the main procedure (RM 6.4, 11.4).
with Ada.Text_IO; use Ada.Text_IO;

procedure Raised_In_A_Loop is
   procedure First is
   begin
      Put_Line ("bye");
   end First;

   procedure Second is
   begin
      raise Constraint_Error;
   end Second;
begin
   for I in 1 .. 2 loop
      Put (Integer'Image (I));
      First;
      Second;
   end loop;
   New_Line;
end Raised_In_A_Loop;
