--  A formal is handed on, a variable of a body around is an actual, and a body calls itself (RM 6.4.1, 8.3).
with Ada.Text_IO; use Ada.Text_IO;

procedure Handed_On is
   Total : Integer := 0;

   procedure Add (Sum : in out Integer; N : Integer) is
   begin
      Sum := Sum + N;
   end Add;

   procedure Walk (Depth : Integer; Sum : in out Integer) is
   begin
      if Depth = 0 then
         return;
      end if;
      Add (Sum, Depth);
      Add (Total, 100);
      Walk (Depth - 1, Sum);
   end Walk;
begin
   declare
      S : Integer := 1;
   begin
      Walk (4, S);
      Put_Line (Integer'Image (S) & Integer'Image (Total));
      Walk (2, Total);
      Put_Line (Integer'Image (S) & Integer'Image (Total));
   end;
end Handed_On;
