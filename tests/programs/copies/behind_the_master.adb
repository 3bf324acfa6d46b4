--  Copies go back once the master of the body is left: its Finalize reads the actual as it was, and what it writes
--  there is lost (RM 6.4.1, 7.6.1).
with Ada.Finalization; use Ada.Finalization;
with Ada.Text_IO;      use Ada.Text_IO;

procedure Behind_The_Master is
   N : Integer := 1;

   type T is new Limited_Controlled with null record;

   overriding procedure Finalize (X : in out T);

   procedure Finalize (X : in out T) is
   begin
      Put_Line (Integer'Image (N));
      N := 50;
   end Finalize;

   procedure P (M : in out Integer) is
      V : T;
   begin
      M := M + 1;
   end P;
begin
   P (N);
   Put_Line (Integer'Image (N));
end Behind_The_Master;
