--  Two procedures are called in each turn of a loop, which goes on behind each call (RM 5.5, 6.4).
with Ada.Text_IO; use Ada.Text_IO;

procedure In_A_Loop is
   procedure First is
   begin
      Put_Line ("bye");
   end First;

   procedure Second is
   begin
      New_Line;
   end Second;
begin
   for I in 1 .. 2 loop
      Put (Integer'Image (I));
      First;
      Second;
   end loop;
   New_Line;
end In_A_Loop;
