--  A procedure frees the object that its formal stands for. To hand the formal on, as to a call of Finalize, only names
--  the object and is no use of it; the next read of a part of it stops the run (RM 6.2, 13.11.2).
with Ada.Finalization; use Ada.Finalization;
with Ada.Text_IO;      use Ada.Text_IO;
with Ada.Unchecked_Deallocation;

procedure Formal_Gone is
   type T is new Limited_Controlled with record
      N : Integer := 7;
   end record;

   type Ref is access T;

   overriding procedure Finalize (X : in out T);

   procedure Free is new Ada.Unchecked_Deallocation (T, Ref);

   A : Ref;

   procedure Finalize (X : in out T) is
   begin
      Put_Line ("F");
   end Finalize;

   procedure Drop (X : in out T) is
   begin
      Free (A);
      Put_Line ("gone");
      Finalize (X);
      Put_Line ("on");
      Put_Line (Integer'Image (X.N));
   end Drop;
begin
   A := new T;
   Drop (A.all);
end Formal_Gone;
