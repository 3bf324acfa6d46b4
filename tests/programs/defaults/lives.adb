--  A default comes before the object's Initialize, and what its function declares is finalized before its value is
--  there (RM 3.8, 7.6, 7.6.1).
with Ada.Finalization; use Ada.Finalization;
with Ada.Text_IO;      use Ada.Text_IO;

procedure Lives is
   Count : Integer := 0;

   type Guard is new Limited_Controlled with record
      N : Integer := 0;
   end record;

   overriding procedure Finalize (X : in out Guard);

   function Next return Integer;

   type T is new Controlled with record
      Id : Integer := Next;
   end record;

   overriding procedure Initialize (X : in out T);
   overriding procedure Finalize (X : in out T);

   procedure Finalize (X : in out Guard) is
   begin
      Put_Line ("guard" & Integer'Image (X.N));
   end Finalize;

   function Next return Integer is
      G : Guard;
   begin
      Count := Count + 1;
      G.N := Count;
      return Count;
   end Next;

   procedure Initialize (X : in out T) is
   begin
      Put_Line ("i" & Integer'Image (X.Id));
   end Initialize;

   procedure Finalize (X : in out T) is
   begin
      Put_Line ("f" & Integer'Image (X.Id));
   end Finalize;
begin
   declare
      A, B : T;
   begin
      Put_Line (Integer'Image (A.Id) & Integer'Image (B.Id));
   end;
end Lives;
