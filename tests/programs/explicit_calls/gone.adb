--  Such a call names an object that was freed: the program is erroneous, and its run stops (RM 13.11.2).
with Ada.Finalization; use Ada.Finalization;
with Ada.Text_IO;      use Ada.Text_IO;
with Ada.Unchecked_Deallocation;

procedure Gone is
   type T is new Controlled with record
      N : Integer := 1;
   end record;

   type Ref is access T;

   procedure Free is new Ada.Unchecked_Deallocation (T, Ref);

   A, B : Ref;
begin
   A := new T;
   B := A;
   Finalize (B.all);
   Put_Line (Integer'Image (B.N));
   Free (A);
   Finalize (B.all);
   Put_Line ("never");
end Gone;
